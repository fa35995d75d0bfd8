#!/bin/bash
# Runs inside the machine of trial-power, as root, at each of its starts: installs the package if it is not installed yet,
# prints what the office has, and then changes it, a numbered change after another, until the power is cut. It prints
# `begin N` before a change and `done N` once the change is answered. The first number is the word rooms.change=N of the
# kernel's command line. machine/cuts.py reads what is printed and knows what each change does.
#
# shellcheck disable=SC1010 # `do` is a line of the program
set -uo pipefail
cd /trial || exit 1
# shellcheck source=deploy/package/checks.sh
. ./checks.sh
file=/var/lib/rooms/rooms.db
key=key00000000000t1
units=(rooms-keeper.socket rooms-keeper.service)

say() {
    echo "$*" >/dev/ttyS1
}

# A command that has to succeed. Its output goes to the console.
must() {
    "$@" >/dev/console 2>&1 || { say "fault $*"; sleep infinity; }
}

# The resident T1 hands in a list, to the server itself, which may not have begun yet after a line of the office.
hand_in() {
    [ "$(curl -s -o /dev/null -w '%{http_code}' --max-time 60 -X PUT -H "Room-Key: $key" -d "$1" \
        http://127.0.0.1:290/me/choices)" = 200 ]
}

install_office() {
    must dpkg -i ./rooms_*.deb
    mkdir -p /etc/systemd/system/rooms-keeper.service.d
    printf '[Service]\nEnvironment=ROOMS_LINE_SECONDS=120 ROOMS_TURN_SECONDS=140\n' \
        >/etc/systemd/system/rooms-keeper.service.d/slow.conf
    must systemctl daemon-reload
    must runuser -u rooms -- rooms new --db $file
    must systemctl start "${units[@]}"
    must rooms-office lines < <(printf 'room A\nroom B\nperson T1 %s Tim Tan\nopen\n' "$key")
    must sync
}

# The resident's record.
ask_me() {
    curl -sf --max-time 60 -H "Room-Key: $key" http://127.0.0.1:290/me
}

# Rooms as A,B, then what T1 has on their list as A-B, and whether sqlite3 finds the file and the last copy whole.
print_office() {
    local rooms list part whole
    within 240 rooms-office export rooms || say "fault: no office"
    within 240 ask_me || say "fault: no server"
    rooms=$(rooms-office export rooms | tail -n +2 | cut -d, -f1 | paste -sd,)
    list=$(ask_me | sed 's/.*"choices":\[\([^]]*\)\].*/\1/' |
        tr -d '"' | tr , -)
    must systemctl stop "${units[@]}"
    rm -f whole.db*
    for part in "$file" "$file"-*; do
        [ ! -e "$part" ] || cp "$part" "whole.db${part#"$file"}"
    done
    whole=$(sqlite3 whole.db 'pragma integrity_check; pragma foreign_key_check' 2>&1 | xargs)
    if [ -s copy ]; then
        cp "/var/lib/rooms/backups/$(cat copy)/rooms.db" kept.db
        [ "$(sqlite3 kept.db 'pragma integrity_check')" = ok ] || say "fault: the copy $(cat copy)"
    fi
    must systemctl start "${units[@]}"
    within 240 ask_me || say "fault: no server"
    say "office $rooms $list $whole"
}

# One change. Each kind of change that the keeper makes in its own way comes in turn.
change() {
    local n=$1
    case $((n % 8)) in
        0) rooms-office do room "R$n" ;;
        1) within 240 hand_in '["A","B"]' ;;
        2) rooms-office import rooms "l-$n" - < <(printf 'room\nI%s\nJ%s\n' "$n" "$n") ;;
        3) rooms-office lines < <(printf 'room K%s\nroom L%s\n' "$n" "$n") ;;
        4) within 240 hand_in '["B"]' ;;
        5) rooms-office backup >copy && sync copy ;;
        6) rooms-office do room "Z$n" ;;
        7) rooms-office back "$(cat copy)" ;;
    esac
}

[ -e $file ] || install_office
print_office
n=$(sed -n 's/.*rooms\.change=\([0-9]*\).*/\1/p' /proc/cmdline)
while true; do
    say "begin $n"
    must change "$n"
    say "done $n"
    n=$((n + 1))
done
