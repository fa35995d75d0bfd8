#!/bin/bash
# Runs inside the Debian of trial, as root: starts the keeper, the office's page and HAProxy under their accounts, asks
# the site over TLS as residents and clerks do, and ends them. No systemd runs there, so folders and sockets are made
# here; trial-systemd tries the units.
#
# shellcheck disable=SC1010 # `do` is a line of the program
set -uo pipefail
cd /trial || exit 1
# shellcheck source=deploy/package/checks.sh
. ./checks.sh
key=${1:?the key of a resident}
export ROOMS_SOCKET=/run/trial/keeper/socket ROOMS_PAGE_SOCKET=/run/trial/page/socket ROOMS_SCRATCH=/run/trial/copies
# In the folder that HAProxy sees.
export ROOMS_TOLD_SOCKET=/run/trial/page/told/socket
at_end() {
    # shellcheck disable=SC2046 # numbers
    kill $(jobs -p) 2>/dev/null
    wait
    rm -rf /run/trial
}
trap at_end EXIT

# Asks the site, and prints the status: the path, a password or nothing, and fields as `Name: value`. The answer's body
# goes to the file `body`.
ask() {
    /usr/bin/python3 - "$@" <<'END'
import base64, http.client, socket, ssl, sys
path, password, *fields = sys.argv[1:]
context = ssl.create_default_context(cafile="rooms.crt")
connection = http.client.HTTPSConnection("rooms.example.org", timeout=60)
connection.sock = context.wrap_socket(socket.create_connection(("127.0.0.1", 443)), server_hostname="rooms.example.org")
fields = dict(field.split(": ", 1) for field in fields)
if password:
    fields["Authorization"] = "Basic " + base64.b64encode(password.encode()).decode()
connection.request("GET", path, headers=fields)
answer = connection.getresponse()
with open("body", "wb") as body:
    body.write(answer.read())
print(answer.status)
END
}

answers() {
    [ "$(ask /me '' "Room-Key: $key")" = 200 ]
}

# The office's command, by an account of these groups.
command_of() {
    local groups="$1"
    shift
    setpriv --reuid nobody --regid nogroup "$groups" rooms-office "$@"
}

# A service under its account, whose socket is for a group alone.
start() {
    local account="$1" groups="$2" group="$3" socket="$4"
    shift 4
    install -d -o "$account" -m 755 "$(dirname "$socket")"
    # The keeper's unit gives it this capability; the page needs none.
    local bind=()
    [ "$account" != rooms ] || bind=(--inh-caps "-all,+net_bind_service" --ambient-caps +net_bind_service)
    setpriv --reuid "$account" --regid "$account" "$groups" "${bind[@]}" /usr/bin/python3 -B "$@" &
    try "$account: its socket" within 30 test -S "$socket"
    chgrp "$group" "$socket"
    chmod 660 "$socket"
}

rm -rf /run/trial
install -d -m 755 /run/trial
install -d -o rooms -m 700 /run/trial/copies
start rooms --clear-groups rooms-office "$ROOMS_SOCKET" /usr/lib/rooms/keeper.py
start rooms-page --groups=rooms-office haproxy "$ROOMS_PAGE_SOCKET" /usr/lib/rooms/page/page.py
start rooms-told --clear-groups haproxy "$ROOMS_TOLD_SOCKET" /usr/lib/rooms/told_server.py
try "HAProxy takes its configuration" haproxy -c -q -f haproxy.cfg
haproxy -db -f haproxy.cfg &
try "a resident is answered" within 30 answers
like "their record" '*"person":"T1"*' "$(cat body)"
same "a key of nobody" 403 "$(ask /me '' 'Room-Key: 0000000000000000')"
same "the residents' page" 200 "$(ask / '')"
like "its text" "*<html*" "$(head -c 300 body)"
same "what clerks say of rooms" 200 "$(ask /told/told.json '')"
same "nothing yet" "{}" "$(cat body)"
same "the office's page without a password" 401 "$(ask /office/ '')"
same "with a wrong one" 401 "$(ask /office/ clerk:wrong)"
same "with the right one" 200 "$(ask /office/ clerk:secret)"
like "its text" "*Room office*" "$(cat body)"
like "a line by an account of the group" "round *" "$(command_of --groups=rooms-office do round)"
like "another account may not" "*unavailable*" "$(command_of --clear-groups do round 2>&1)"
end_of_trial
