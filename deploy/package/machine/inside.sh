#!/bin/bash
# Runs inside the machine of trial-systemd, as root, at each of its starts: the first time all but the end, then what
# follows a new start of the machine. Then the machine ends.
#
# shellcheck disable=SC1010 # `do` is a line of the program
set -uo pipefail
cd /trial || exit 1
# shellcheck source=deploy/package/checks.sh
. ./checks.sh
# shellcheck source=/dev/null # old and new: the versions
. ./versions
# shellcheck source=deploy/package/machine/houses.sh
. ./houses.sh
file=/var/lib/rooms/rooms.db
units=(rooms-keeper.socket rooms-keeper.service rooms-page.socket rooms-page.service rooms-told.socket rooms-told.service)
site=https://rooms.example.org
rooms=room,state,tenant\ H1,occupied,T1\ H2,occupied,T2\ V,free,
page=/usr/share/doc/rooms/docs/upgrading.md
folder=/home/admin/upgrade
# The residents' key, and one that nobody has.
key=$(head -c 16 /dev/urandom | od -An -tx1 | tr -d ' \n')
nobody=0000000000000000
[ ! -e key ] || key=$(cat key)
[ ! -e faults ] || faults=$(cat faults)

# Asks the site, and prints the status.
ask() {
    curl -s -o /trial/body -w '%{http_code}' --max-time 60 --cacert /trial/rooms.crt \
        --resolve rooms.example.org:443:127.0.0.1 "$@"
}

page_answers() {
    [ "$(ask -u clerk:secret $site/office/)" = 200 ]
}

answers() {
    [ "$(ask -H "Room-Key: $key" $site/me)" = 200 ]
}

clerk() {
    runuser -u clerk -- rooms-office "$@"
}

install_package() {
    part "Install, before there is an office"
    local began=$SECONDS
    try "the package" dpkg -i "rooms_${old:?}_amd64.deb"
    echo "       in $((SECONDS - began)) s"
    same "units that systemd starts" "enabled enabled enabled enabled enabled enabled enabled" \
        "$(systemctl is-enabled "${units[@]}" rooms-backup.timer | xargs)"
    same "they wait for an office" "inactive inactive inactive inactive inactive inactive" "$(systemctl is-active "${units[@]}" | xargs)"
    same "nothing has failed" "" "$(systemctl --failed --plain --no-legend)"
}

start_office() {
    part "An office"
    # An emulated machine may need longer for a line than the keeper waits elsewhere.
    mkdir -p /etc/systemd/system/rooms-keeper.service.d
    printf '[Service]\nEnvironment=ROOMS_LINE_SECONDS=120 ROOMS_TURN_SECONDS=140\n' \
        >/etc/systemd/system/rooms-keeper.service.d/slow.conf
    systemctl daemon-reload
    same "rooms new" "ok" "$(runuser -u rooms -- rooms new --db $file)"
    try "start" systemctl start "${units[@]}"
    same "all are active" "active active active active active active" "$(systemctl is-active "${units[@]}" | xargs)"
    try "the server listens" within 60 sh -c 'ss -ltn | grep -q 127.0.0.1:290'
    same "no other account can have its port" 1024 "$(cat /proc/sys/net/ipv4/ip_unprivileged_port_start)"
    like "nor can one try" "*Permission denied*" "$(runuser -u nobody -- /usr/bin/python3 -c \
        'import socket; socket.socket().bind(("127.0.0.1", 290))' 2>&1)"
    same "the keeper has this one capability" 0000000000000400 "$(awk '/^CapEff/ { print $2 }' \
        "/proc/$(systemctl show -p MainPID --value rooms-keeper.service)/status")"
    # The first of these lines shows that the journal has what the unit wrote.
    same "and is not told that it may not have the port" "rooms-keeper: ready" \
        "$(journalctl --no-pager -o cat -u rooms-keeper.service | grep -e '^rooms-keeper: ready' -e 'ports below')"
    for unit in rooms-keeper rooms-page rooms-told; do
        local process
        process=$(systemctl show -p MainPID --value "$unit.service")
        same "$unit has its account, no more rights and a filter" "$unit NoNewPrivs: 1 Seccomp: 2" \
            "$(stat -c %U "/proc/$process" | sed 's/^rooms$/rooms-keeper/') $(grep -E '^(NoNewPrivs|Seccomp):' \
                "/proc/$process/status" | xargs)"
        echo "       $(systemd-analyze security --no-pager "$unit.service" | tail -n 1)"
    done
    same "the sockets" "rooms rooms-office 660 root haproxy 660 root haproxy 660" \
        "$(stat -c '%U %G %a' /run/rooms-keeper.sock /var/lib/haproxy/rooms-{page,told}.sock | xargs)"
    same "the folder of what residents read of rooms" "rooms 755" "$(stat -c '%U %a' /var/lib/rooms-told)"
    same "the file, for its account alone" "rooms 600 rooms 700" "$(stat -c '%U %a' $file /var/lib/rooms | xargs)"
}

start_proxy() {
    part "HAProxy"
    openssl req -x509 -newkey rsa:2048 -nodes -days 30 -subj /CN=rooms.example.org \
        -addext subjectAltName=DNS:rooms.example.org -keyout rooms.key -out rooms.crt 2>/dev/null
    (umask 077; cat rooms.crt rooms.key >/etc/haproxy/rooms.pem)
    sed "/^userlist office$/a user clerk password $(openssl passwd -6 secret)" \
        /usr/share/doc/rooms/deploy/haproxy.cfg >/etc/haproxy/haproxy.cfg
    try "its configuration" haproxy -c -f /etc/haproxy/haproxy.cfg
    cp /usr/share/doc/rooms/deploy/rooms-rsyslog.conf /etc/rsyslog.d/48-rooms.conf
    try "the log's bound" systemctl restart rsyslog
    try "start" systemctl restart haproxy
    same "its memory has a bound" $((768 * 1024 * 1024)) "$(systemctl show -p MemoryMax --value haproxy)"
}

use_command() {
    part "The office's command, by an ordinary account"
    useradd -m -G rooms-office clerk
    useradd -m stranger
    same "round" "round 0 idle people 0 withdrawn 0" "$(clerk do round)"
    same "a list of rooms" "added 3" "$(clerk import rooms rooms-1 - < <(printf 'room\nH1\nH2\nV\n'))"
    printf 'person,name,key,home\nT1,Tim Tan,%s,H1\nT2,Tom Tao,key00000000000t2,H2\n' "$key" >people.csv
    same "a list of people" "added 2" "$(clerk import people people-1 - <people.csv)"
    same "open" "round 1 open" "$(clerk do open)"
    same "export" "$rooms" "$(clerk export rooms | xargs)"
    like "another account may not" "*unavailable*" "$(runuser -u stranger -- rooms-office do round 2>&1)"
    try "nor read the file" sh -c '! runuser -u clerk -- cat /var/lib/rooms/rooms.db'
    like "a line beside the server says who has the file" "*rooms.db is in use, by process*" \
        "$(rooms do --db $file round 2>&1)"
    like "and to the server's account that root can see it" "*rooms.db is in use; only root*" \
        "$(runuser -u rooms -- rooms do --db $file round 2>&1)"
}

use_site() {
    part "Over TLS"
    same "the residents' page" 200 "$(ask $site/)"
    like "its text" "*<html*" "$(head -c 300 body)"
    same "a key of nobody" 403 "$(ask -H "Room-Key: $nobody" $site/me)"
    same "a resident" 200 "$(ask -H "Room-Key: $key" $site/me)"
    like "their record" '*"person":"T1"*' "$(cat body)"
    same "a list" 200 "$(ask -X PUT -H "Room-Key: $key" -d '["H2","V"]' $site/me/choices)"
    same "the office's page without a password" 401 "$(ask $site/office/)"
    same "with a wrong one" 401 "$(ask -u clerk:wrong $site/office/)"
    same "with the right one" 200 "$(ask -u clerk:secret $site/office/)"
    like "its text" "*Room office*" "$(cat body)"
    same "http leads to https" 301 "$(ask -H 'Host: rooms.example.org' http://127.0.0.1/)"
    try "HAProxy's log comes out of its chroot" within 30 grep -q 'PUT /me/choices HTTP' /var/log/haproxy.log
    same "HAProxy sees its folder alone" /var/lib/haproxy "$(readlink "/proc/$(pgrep -n -u haproxy haproxy)/root")"
}

keep_copies() {
    part "The copy of the night"
    try "the timer's service" systemctl start rooms-backup.service
    copy=$(find /var/lib/rooms/backups -mindepth 1 -maxdepth 1 -name '2*Z*' | sort | tail -n 1)
    echo "$copy" >copy
    same "a copy, for the account alone" "rooms 700 rooms 600" "$(stat -c '%U %a' "$copy" "$copy/rooms.db" | xargs)"
    try "then all that a new machine needs" within 60 sh -c 'test -e /var/backups/rooms/*/SHA256SUMS'
    local backup
    backup=$(find /var/backups/rooms -mindepth 1 -maxdepth 1 -name '2*Z*')
    same "for root alone" "root 700 root 600" "$(stat -c '%U %a' "$backup" "$backup/rooms.db" | xargs)"
    same "with the office, the journal, the texts, HAProxy's files and what was changed of the system" \
        "48-rooms.conf haproxy.cfg index.html journal rooms.csv rooms.db rooms.pem slow.conf texts.js" \
        "$(cd "$backup" && find rooms.db state files -type f -printf '%f\n' | LC_ALL=C sort | xargs)"
    same "and each as it was saved" "" "$(cd "$backup" && sha256sum --quiet -c SHA256SUMS 2>&1)"
    like "when it comes again" "*rooms-backup.timer*" "$(systemctl list-timers --no-pager rooms-backup.timer)"
}

kill_things() {
    part "Kills"
    local process
    process=$(systemctl show -p MainPID --value rooms-keeper.service)
    kill -KILL "$process"
    try "the keeper is killed: residents are answered again" within 60 answers
    like "their list is there" '*"choices":\["H2","V"\]*' "$(cat body)"
    same "one server runs" 1 "$(pgrep -fc 'serve --db /var/lib/rooms/rooms.db')"
    kill -KILL "$(pgrep -fo 'serve --db /var/lib/rooms/rooms.db')"
    try "the server is killed: residents are answered again" within 60 answers
    kill -KILL "$(systemctl show -p MainPID --value rooms-page.service)"
    try "the page is killed: clerks are answered again" within 60 page_answers
    try "restart" systemctl restart rooms-keeper.service
    try "and residents are answered" within 60 answers
}

upgrade() {
    part "Upgrade, restore"
    try "the later version" dpkg -i "rooms_${new:?}_amd64.deb"
    same "rooms --version" "rooms $new" "$(rooms --version | head -n 1)"
    try "residents are answered" within 60 answers
    same "all are active" "active active active active active active" "$(systemctl is-active "${units[@]}" | xargs)"
    same "the office's page" 200 "$(ask -u clerk:secret $site/office/)"
    same "a line" "ok" "$(clerk do room LATE)"
    try "rooms-restore" rooms-restore "$(cat copy)"
    same "the later room is gone" "$rooms" "$(clerk export rooms | xargs)"
    try "residents are answered" within 60 answers
    try "back to the earlier version" dpkg -i --force-downgrade "rooms_${old}_amd64.deb"
    try "residents are answered" within 60 answers
}

# An administrator's account, with a folder as of step 1 of docs/upgrading.md. The site's name leads to this machine.
make_admin() {
    useradd -m -G sudo,rooms-office admin
    install -m 440 /dev/stdin /etc/sudoers.d/admin <<<'admin ALL=(ALL) NOPASSWD: ALL'
    echo "127.0.0.1 localhost rooms.example.org $(hostname)" >>/etc/hosts
    install -d -m 700 /media/safe
    install -d -o admin -m 700 $folder
    install -o admin -m 600 -t $folder rooms_*.deb
    sha256sum "rooms_${new}_amd64.deb" >$folder/SHA256SUMS
}

# Runs the block of docs/upgrading.md that has these words, by the administrator's account in their folder, and answers
# a question with y. The packages and the copy that the page names are examples: here the copy is `kept`.
by_page() {
    awk -v words="$1" '
        /^```/ { if (found) exit; inside = !inside; block = ""; next }
        inside { block = block $0 "\n"; found = found || index($0, words) }
        END { if (found) printf "%s", block }' $page |
        sed -e 's/rooms_1[.]0[.]0_amd64/EARLIER/' -e "s/rooms_[0-9.]*_amd64/rooms_${new}_amd64/" \
            -e "s/EARLIER/rooms_${old}_amd64/" -e "s/20270131T120000Z/${kept:-}/" >block
    [ -s block ] || echo "no block of the page has: $1"
    runuser -u admin -- env -C $folder HOME=/home/admin CURL_CA_BUNDLE=/trial/rooms.crt bash /trial/block <<<y 2>&1
}

# An office of version 1 in the middle of a round, made by sqlite3 from the tables of docs/formats.md, in the order in
# which the program of version 1 kept them. The list of T2 is in the log alone.
make_earlier() {
    local table
    {
        echo 'PRAGMA journal_mode = WAL;'
        for table in room person round move list word result choice; do
            sed -n "/^CREATE TABLE $table(/,/STRICT;\$/p" /usr/share/doc/rooms/docs/formats.md
        done
        cat <<END
INSERT INTO room VALUES ('H1', 0), ('H2', 0), ('V', 0), ('W', 1);
INSERT INTO person VALUES ('T1', 'Tim Tan', '$key', 'H1', 0), ('T2', 'Tom Tao', 'key00000000000t2', 'H2', 0),
    ('N', 'Zoë Zä', 'key000000000000n', NULL, 0), ('Q', 'Quy Ho', 'key000000000000q', NULL, 1);
INSERT INTO round VALUES (1, 1, 2, 'open');
INSERT INTO choice VALUES ('T1', 0, 'H2'), ('T1', 1, 'V'), ('N', 0, 'V');
INSERT INTO move VALUES (1, 'T1', NULL, 'H1', 1), (1, 'T2', 'V', 'H2', NULL);
INSERT INTO list VALUES ('rooms-1', 'rooms', CAST('room' || char(10) || 'H1' AS BLOB), 1);
END
    } | sqlite3 rooms.db
    sqlite3 rooms.db '.dbconfig no_ckpt_on_close on' "INSERT INTO choice VALUES ('T2', 0, 'H1')"
}

# All rows of the office, by sqlite3 on a copy.
all_rows() {
    rm -rf rows
    mkdir rows
    cp $file $file-wal rows
    sqlite3 rows/rooms.db .dump
}

# Who the resident with this key is, their home and their list, as the site shows them.
seen_by() {
    ask -H "Room-Key: $1" $site/me >/dev/null
    sed 's/.*"choices":\[\(.*\)\],"going".*"home":\(.*\),"name":\(.*\),"person":\(.*\),"phase".*/\4 \3 \2 \1/' body |
        tr -d '"' | tr , ' ' | sed 's/ null / none /'
}

# The same of the person with this identifier, as the clerk's command shows it.
on_record() {
    clerk view "$1" | sed -n -E 's/^(person|name|home|choices) //p' | xargs
}

put_earlier() {
    part "A file of version 1, by docs/upgrading.md to the letter"
    make_admin
    systemctl stop "${units[@]}"
    rm -f $file $file-wal $file-shm
    make_earlier >/dev/null
    install -o rooms -g rooms -m 600 -t /var/lib/rooms rooms.db rooms.db-wal
    all_rows >earlier
    same "the list of T2 is in the log alone" 0 \
        "$(sqlite3 'file:rooms.db?immutable=1' "SELECT count(*) FROM choice WHERE person = 'T2'")"
    try "start" systemctl start "${units[@]}"
    # What the command of version 1 wrote in step 1.
    printf '%s\n' person,name,home "N,Zoë Zä," "Q,Quy Ho," "T1,Tim Tan,H1" "T2,Tom Tao,H2" >$folder/people-before.csv
    printf '%s\n' room,state,tenant H1,occupied,T1 H2,occupied,T2 V,free, W,shut, >$folder/rooms-before.csv
    chown admin $folder/*.csv
}

install_by_page() {
    same "step 1: the checksum" "rooms_${new}_amd64.deb: OK" "$(by_page 'sha256sum -c')"
    like "the pages in the package" "# Changelog*# Upgrading*" "$(by_page dpkg-deb)"
    kept=$(by_page 'rooms-office backup')
    like "step 2: a copy" "2*T*Z" "$kept"
    same "it is taken elsewhere" "rooms.db why" "$(by_page 'cp -r' | xargs)"
    like "step 3: the package" "*Setting up rooms ($new)*" "$(by_page 'apt-get install ./')"
    same "rooms --version" "rooms $new" "$(rooms --version | head -n 1)"
}

wait_for_migration() {
    same "all are active" "active active active active active active" "$(systemctl is-active "${units[@]}" | xargs)"
    local began=$SECONDS
    same "a resident cannot sign in" 503 "$(ask -H "Room-Key: $key" $site/me)"
    echo "       after $((SECONDS - began)) s"
    same "nor hand in a list" 503 "$(ask -X PUT -H "Room-Key: $key" -d '["V"]' $site/me/choices)"
    same "the residents' page is there" 200 "$(ask $site/)"
    same "and the office's page" 200 "$(ask -u clerk:secret $site/office/)"
    like "which says why" "*is of version 1, and has to be brought to version*3*" "$(cat body)"
    same "a line" "refused 22 OtherVersion 1" "$(clerk do room LATE)"
    like "rooms-office view" "round 2 open*server not running*" "$(clerk view)"
    same "no row has changed" "$(cat earlier)" "$(all_rows)"
}

migrate_by_page() {
    kept=$(by_page 'export choices >')
    like "step 4: a copy" "2*T*Z" "$kept"
    same "the lists" "person,choices N,V T1,H2 V T2,H1" "$(xargs <$folder/choices-before.csv)"
    same "the copy is taken elsewhere" "rooms.db why" "$(by_page 'cp -r' | xargs)"
    same "stop, migrate, start" "ok" "$(by_page 'rooms migrate')"
    same "owner and mode" "rooms rooms 600 rooms rooms 600" "$(stat -c '%U %G %a' $file $file-wal | xargs)"
    try "residents are answered" within 60 answers
    same "step 5: the clerk's line alone differs" "< user clerk password" \
        "$(by_page 'sudo diff' | grep '^[<>]' | cut -d ' ' -f 1-4)"
    same "HAProxy" "Configuration file is valid" "$(by_page 'haproxy -c')"
    same "step 6" "$(rooms --version; printf '%s\n' active active "round 2 open people 4 withdrawn 1" 403)" \
        "$(by_page is-active)"
    same "no list has changed" "" "$(by_page 'diff choices-before.csv')"
    same "the files with names are deleted" "" "$(by_page 'rm -f'; find $folder -name '*.csv')"
}

look_at_migrated() {
    local one wanted
    for one in "$key T1 Tim Tan H1 H2 V" "key00000000000t2 T2 Tom Tao H2 H1" "key000000000000n N Zoë Zä none V"; do
        wanted=${one#* }
        same "a resident sees $wanted" "$wanted" "$(seen_by "${one%% *}")"
        same "and so does the clerk" "$wanted" "$(on_record "${wanted%% *}")"
    done
    same "the moves of round 1" "round,wave,person,from,to 1,1,T1,,H1 1,swap,T2,V,H2" "$(clerk export moves | xargs)"
    same "nobody has a grade" "person,grade N,0 Q,0 T1,0 T2,0" "$(clerk export grades | xargs)"
    same "a line of version 3" "ok" "$(clerk do grade T2 1)"
    same "another list" 200 "$(ask -X PUT -H "Room-Key: $key" -d '["V"]' $site/me/choices)"
}

go_back_by_page() {
    local copy=$kept before said
    before=$(sha256sum "/var/lib/rooms/backups/$copy"/*)
    said=$(by_page 'office back 2')
    like "step 7: rooms-office back" "2*T*Z*the copy is put back*" "$said"
    same "the list is that of the copy" "T1 Tim Tan H1 H2 V" "$(within 60 answers; seen_by "$key")"
    same "nobody has a grade" "person,grade N,0 Q,0 T1,0 T2,0" "$(clerk export grades | xargs)"
    same "the kept copy is as it was" "$before" "$(sha256sum "/var/lib/rooms/backups/$copy"/*)"
    kept=$(head -n 1 <<<"$said")
    like "the same with the name that it printed" "2*T*Z*the copy is put back*" "$(by_page 'office back 2')"
    same "undoes it" "T1 Tim Tan H1 V" "$(within 60 answers; seen_by "$key")"
    kept=$copy
    like "the earlier package, and the copy" "*Setting up rooms ($old)*the copy is whole*in place: $file" \
        "$(by_page rooms-restore)"
    same "the list is that of the copy" "T1 Tim Tan H1 H2 V" "$(within 60 answers; seen_by "$key")"
    same "the kept copy is as it was" "$before" "$(sha256sum "/var/lib/rooms/backups/$copy"/*)"
    same "and the one elsewhere" "" "$(diff -r "/var/lib/rooms/backups/$copy" "/media/safe/$copy")"
}

look_for_keys() {
    part "Keys"
    journalctl --no-pager >log
    same "no log has the key of the resident" "" "$(grep -rl "$key" log /var/log)"
    same "nor the journal of the office" "" "$(grep -l "$key" /var/lib/rooms/journal)"
}

after_start() {
    part "After a new start of the machine"
    try "the residents are answered" within 120 answers
    same "all are active" "active active active active active active" "$(systemctl is-active "${units[@]}" | xargs)"
    same "the timer" active "$(systemctl is-active rooms-backup.timer)"
    same "nothing has failed" "" "$(systemctl --failed --plain --no-legend)"
}

remove() {
    part "Remove and purge"
    try "remove" dpkg -r rooms
    same "nothing of it runs" "" "$(pgrep -u rooms,rooms-page,rooms-told -a)"
    same "no socket is left" "" "$(find /run /var/lib/haproxy -name 'rooms*')"
    try "purge" dpkg -P rooms
    try "the office is kept" test -e $file
    rm -r /etc/systemd/system/rooms-keeper.service.d /etc/systemd/system/rooms-keeper@.service.d
    same "no unit is left" "" "$(systemctl list-unit-files --no-legend 'rooms*'; find /etc/systemd -name 'rooms*')"
}

if [ ! -e key ]; then
    (umask 077; echo "$key" >key)
    install_package
    start_office
    start_proxy
    use_command
    use_site
    keep_copies
    kill_things
    upgrade
    put_earlier
    install_by_page
    wait_for_migration
    migrate_by_page
    look_at_migrated
    go_back_by_page
    look_for_keys
    try_houses
    echo "$faults" >faults
    sync
    systemctl reboot
else
    after_start
    houses_after_start
    remove
    purged_houses
    (end_of_trial)
    sync
    systemctl poweroff
fi
