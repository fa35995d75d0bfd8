# shellcheck shell=bash
# Sourced by inside.sh: several houses beside the plain office, by the commands of an administrator.
#
# shellcheck disable=SC1010,SC2154 # `do` is a line of the program; inside.sh sets new, site, file
houses=(north south)

# Asks the site of a house, and prints the status: the house, and curl's words. $wrong may name another host for the connection.
ask_house() {
    local name=${wrong:-$1.example.org}
    shift
    curl -s -o /trial/body -w '%{http_code}' --max-time 60 -k --resolve "$name:443:127.0.0.1" "$@"
}

# The key of T1 in a house.
key_of() {
    printf 'key%013s' "$1" | tr ' ' 0
}

house_answers() {
    [ "$(ask_house "$1" -H "Room-Key: $(key_of "$1")" "https://$1.example.org/me")" = 200 ]
}

# The units of a house, with what they are.
states() {
    systemctl is-active "rooms-keeper@$1.socket" "rooms-keeper@$1.service" "rooms-page@$1.socket" "rooms-page@$1.service" \
        "rooms-told@$1.socket" "rooms-told@$1.service" "rooms-backup@$1.timer" "rooms-proxy@$1.service" | sort | uniq -c | xargs
}

sums_of() {
    sha256sum "/var/lib/rooms-houses/$1/rooms.db" "/var/lib/rooms-houses/$1/rooms.db-wal" "/var/lib/rooms-houses/$1/journal"
}

make_houses() {
    part "Houses"
    try "the later version" dpkg -i "rooms_${new:?}_amd64.deb"
    same "there is none, and no router" "inactive" "$(rooms-house list; systemctl is-active rooms-router)"
    mkdir -p /etc/systemd/system/rooms-keeper@.service.d
    cp /etc/systemd/system/rooms-keeper.service.d/slow.conf /etc/systemd/system/rooms-keeper@.service.d/
    local said house
    said=$(rooms-house add plain rooms.example.org 2>&1)
    like "the plain office, behind the router" "added plain rooms.example.org*rooms-router.service does not run*plain-tls.sock*" "$said"
    sed -i -e "s#^    bind :::80 .*#$(grep plain-http.sock <<<"$said")#" -e "s#^    bind :::443 .*#$(grep plain-tls.sock <<<"$said")#" \
        -e 's/tcp-request connection/tcp-request session/' /etc/haproxy/haproxy.cfg
    try "its HAProxy" systemctl restart haproxy
    try "the router has the ports" within 60 systemctl is-active rooms-router
    try "the plain office's residents are answered" within 60 answers
    for house in "${houses[@]}"; do
        like "rooms-house add" "added $house $house.example.org*to do next:*" "$(rooms-house add "$house" "$house.example.org" 2>&1)"
        same "all but HAProxy is active, which waits for a certificate" "7 active 1 inactive" "$(states "$house")"
        like "a certificate for now" "*served for $house.example.org*" \
            "$(/usr/lib/rooms/certificate --house "$house" --for-now "$house.example.org" 2>&1)"
        same "HAProxy is active" "8 active" "$(states "$house")"
        sed -i "/^userlist office$/a user clerk password $(openssl passwd -6 "secret of $house")" "/etc/rooms/houses/$house/haproxy.cfg"
        try "a clerk" systemctl reload "rooms-proxy@$house"
        usermod -aG "rooms-office-$house" "$([ "$house" = north ] && echo clerk || echo stranger)"
    done
    same "the list" "north plain south" "$(rooms-house list | awk '{ print $1 }' | xargs)"
    like "a name that is taken" "*the name north is taken*" "$(rooms-house add north other.example.org 2>&1)"
    like "a host that is taken" "*the host south.example.org is taken*" "$(rooms-house add west south.example.org 2>&1)"
    like "a name that is none" "*no name of a house*" "$(rooms-house add North west.example.org 2>&1)"
    same "nothing has failed" "" "$(systemctl --failed --plain --no-legend)"
}

use_houses() {
    part "Two houses and the plain office side by side"
    local house other
    for house in "${houses[@]}"; do
        other=$([ "$house" = north ] && echo south || echo north)
        same "lines" "added 1 ok" "$(rooms-office --house "$house" import rooms rooms-1 - < <(printf 'room\n%s-1\n' "${house^^}") |
            xargs) $(rooms-office --house "$house" lines < <(printf 'person T1 %s Tia of %s\n' "$(key_of "$house")" "$house"))"
        same "a round" "round 1 open" "$(rooms-office --house "$house" do open)"
        try "residents are answered" within 60 house_answers "$house"
        like "the house's own T1" "*\"name\":\"Tia of $house\"*" "$(cat body)"
        same "the key of $other" 403 "$(ask_house "$house" -H "Room-Key: $(key_of "$other")" "https://$house.example.org/me")"
        same "a request for $other over this connection" 421 \
            "$(ask_house "$house" -H "Host: $other.example.org" "https://$house.example.org/")"
        same "a clerk" 200 "$(ask_house "$house" -u "clerk:secret of $house" "https://$house.example.org/office/")"
        like "the page names the house" "*Room office: $house</a>*" "$(cat body)"
        same "the password of $other" 401 "$(ask_house "$house" -u "clerk:secret of $other" "https://$house.example.org/office/")"
        same "HTTP leads to HTTPS" 301 "$(curl -s -o body -w '%{http_code}' -H "Host: $house.example.org" http://127.0.0.1/)"
    done
    same "a host of no house" 000 "$(wrong=west.example.org ask_house west https://west.example.org/)"
    same "the plain office" 200 "$(ask -H "Room-Key: $key" "$site/me")"
    same "and its page" 200 "$(ask -u clerk:secret "$site/office/")"
    for house in rooms-router rooms-{keeper,page,told,proxy}@north; do
        systemctl show -p MemoryCurrent --value "$house" | awk -v unit="$house" '{ printf "       %s: %d MB\n", unit, $1 / 1048576 }'
    done
}

keep_houses_apart() {
    part "Each house for itself"
    same "north's file is for its account alone" "rooms-keeper-north 600 rooms-keeper-north 700" \
        "$(stat -c '%U %a' /var/lib/rooms-houses/north/rooms.db /var/lib/rooms-houses/north | xargs)"
    same "the sockets" "rooms-keeper-north rooms-office-north 660 root rooms-proxy-north 660 root rooms-proxy-north 660" \
        "$(stat -c '%U %G %a' /run/rooms-keeper-north.sock /var/lib/rooms-houses-proxy/north/rooms-{page,told}.sock | xargs)"
    local account
    for account in rooms rooms-keeper-south rooms-page-south rooms-page-north rooms-proxy-south haproxy clerk; do
        try "$account cannot read it" sh -c "! runuser -u $account -- cat /var/lib/rooms-houses/north/rooms.db"
    done
    same "each server has its port" "127.0.0.1:290 127.0.0.1:293 127.0.0.1:294" \
        "$(ss -ltnH | awk '{ print $4 }' | grep -E ':29[0-9]$' | sort | xargs)"
    same "and no other" "ipv4:tcp293 any" "$(systemctl show -p SocketBindAllow -p SocketBindDeny --value rooms-keeper@north | xargs)"
    like "north's clerk" "round 1 open*" "$(runuser -u clerk -- rooms-office --house north do round)"
    like "cannot reach south" "*the group rooms-office-south *" "$(runuser -u clerk -- rooms-office --house south do round 2>&1)"
    like "nor south's clerk north" "*the group rooms-office-north *" "$(runuser -u stranger -- rooms-office --house north do round 2>&1)"
    local before backup copy
    before=$(sums_of south)
    try "the copy of the night" systemctl start rooms-backup@north.service
    try "then all that a new machine needs" within 60 sh -c 'test -e /var/backups/rooms-houses/north/*/SHA256SUMS'
    backup=$(find /var/backups/rooms-houses/north -mindepth 1 -maxdepth 1 -name '2*Z*')
    same "with what is north's" "48-rooms.conf haproxy.cfg index.html journal rooms.csv rooms.db rooms.pem slow.conf texts.js" \
        "$(cd "$backup" && find rooms.db state files -type f -printf '%f\n' | LC_ALL=C sort | xargs)"
    same "and nothing of south" "" "$(find "$backup" -name '*south*')"
    copy=$(rooms-office --house north backups | awk 'END { print $1 }')
    same "a line" "ok" "$(rooms-office --house north do room LATE)"
    try "rooms-restore" rooms-restore --house north "/var/lib/rooms-houses/north/backups/$copy"
    try "residents of north are answered" within 60 house_answers north
    same "the later room is gone" "" "$(rooms-office --house north export rooms | grep LATE)"
    same "south's files have not changed" "$before" "$(sums_of south)"
    try "and it serves" house_answers south
    like "a house with an office is not removed" "*the house south has an office*" "$(rooms-house remove south 2>&1)"
    same "and runs on" "8 active" "$(states south)"
}

upgrade_houses() {
    part "An upgrade starts the houses anew"
    local before house
    before=$(systemctl show -p MainPID --value rooms-keeper@north rooms-keeper@south rooms-page@north | xargs)
    try "the package" dpkg -i "rooms_${new:?}_amd64.deb"
    same "no process of before" "" "$(for process in $before; do [ ! -e "/proc/$process" ] || ps -o args= "$process"; done)"
    for house in "${houses[@]}"; do
        same "all is active" "8 active" "$(states "$house")"
        try "residents are answered" within 60 house_answers "$house"
    done
}

houses_after_start() {
    part "The houses, after a new start of the machine"
    local house
    for house in "${houses[@]}"; do
        try "residents are answered" within 120 house_answers "$house"
        same "all is active" "8 active" "$(states "$house")"
    done
    remove_house
}

try_houses() {
    make_houses
    use_houses
    keep_houses_apart
    upgrade_houses
}

remove_house() {
    part "A house is removed"
    local before
    systemctl stop rooms-keeper@south.service
    before=$(sums_of south)
    like "rooms-house remove --keep" "removed south*kept:*/var/lib/rooms-houses/south*" "$(rooms-house remove --keep south 2>&1)"
    same "nothing of it is active" "8 inactive" "$(states south)"
    same "nothing of it runs" "" "$(pgrep -a -u rooms-keeper-south,rooms-page-south,rooms-told-south,rooms-proxy-south)"
    same "its office is as it was" "$before" "$(sums_of south)"
    same "its host leads nowhere" 000 "$(ask_house south https://south.example.org/)"
    try "north is answered" house_answers north
    try "and the plain office" answers
}

purged_houses() {
    same "nothing of north runs" "" "$(pgrep -a -u rooms-keeper-north,rooms-page-north,rooms-told-north,rooms-proxy-north,rooms-router)"
    same "the offices of both houses are kept" "/var/lib/rooms-houses/north/rooms.db /var/lib/rooms-houses/south/rooms.db" \
        "$(find /var/lib/rooms-houses -maxdepth 2 -name rooms.db | sort | xargs)"
    try "and north's settings" test -e /etc/rooms/houses/north/haproxy.cfg
    try "the package comes again" dpkg -i "rooms_${new:?}_amd64.deb"
    try "and north is answered again" within 60 house_answers north
    same "all is active" "8 active" "$(states north)"
}
