#!/bin/bash
# Runs inside the Debian of trial, as root: starts rooms-demo by an account without rights, asks both pages as its
# output says, ends it as Ctrl-C and as the end of a session do, and looks for what is left.
set -uo pipefail
cd /trial || exit 1
# shellcheck source=deploy/package/checks.sh
. ./checks.sh
temporary=/trial/temporary
said=/trial/said

# Asks 127.0.0.1, and prints the status and the beginning of the body: the path, and a field as `Name: value`.
ask() {
    /usr/bin/python3 - "$port" "$@" <<'END_OF_PYTHON'
import base64, http.client, sys
port, path, name, value = [*sys.argv[1:], "", ""][:4]
if name == "Authorization":
    value = "Basic " + base64.b64encode(value.encode()).decode()
connection = http.client.HTTPConnection("127.0.0.1", int(port), timeout=60)
connection.request("GET", path, headers={name: value} if name else {})
answer = connection.getresponse()
print(answer.status, answer.read().decode()[:4000])
END_OF_PYTHON
}

# Starts it. A machine with more to do than it has processors gets more time.
start() {
    rm -rf $temporary $said
    install -d -o nobody -m 700 $temporary
    local began=$SECONDS limit=10
    awk -v processors="$(nproc)" '{ exit $1 > processors }' /proc/loadavg || limit=60
    setpriv --reuid nobody --regid nogroup --clear-groups env TMPDIR=$temporary rooms-demo >$said 2>&1 &
    process=$!
    try "it is there" within 120 grep -q Ctrl-C $said
    local took=$((SECONDS - began))
    echo "       in $took s, at a load of $(cut -d ' ' -f 1 /proc/loadavg)"
    same "within $limit seconds" yes "$([ $took -le $limit ] && echo yes)"
}

# What is left: processes of the account, files, sockets that listen.
left() {
    find /proc -maxdepth 1 -user nobody
    [ ! -e $temporary ] || find $temporary -mindepth 1
    awk '$4 == "0A"' /proc/net/tcp /proc/net/tcp6
}

# Ends it by a signal to the command.
end_by() {
    kill "-$1" $process
    local status=0
    wait $process || status=$?
    same "$1 ends it" 0 $status
    same "and nothing is left" "" "$(left)"
}

same "nothing of it is there before" "" "$(left)"
start
port=$(sed -n 's#.*http://127.0.0.1:\([0-9]*\)/office/$#\1#p' $said)
password=$(sed -n 's/.*name clerk, password //p' $said)
same "three keys" 3 "$(grep -c '(S2[0-9]*)' $said)"
key=$(sed -n 's/^ *\([0-9a-f]\{16\}\) .*/\1/p' $said | head -n 1)
like "the residents' page" "200 *made-up college*" "$(ask /)"
like "a resident" '200 *"person":"S2*' "$(ask /me Room-Key "$key")"
like "the office's page without a password" "401 *" "$(ask /office/)"
like "and with it" "200 *Round 1*" "$(ask /office/ Authorization "clerk:$password")"
same "only 127.0.0.1 listens" "0100007F 0100007F" \
    "$(awk '$4 == "0A" { split($2, address, ":"); print address[1] }' /proc/net/tcp /proc/net/tcp6 | xargs)"
end_by INT
start
end_by TERM
rm -rf $temporary $said
end_of_trial
