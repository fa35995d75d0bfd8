# shellcheck shell=bash
# Sourced by the trials: prints what is tried and whether it succeeds, and counts the faults.
faults=0

# Tries a command again, ten times a second, until it succeeds, for so many seconds at most.
within() {
    local tries=$(($1 * 10))
    shift
    until "$@" >/dev/null 2>&1; do
        tries=$((tries - 1))
        [ $tries -gt 0 ] || return 1
        sleep 0.1
    done
}

# A heading.
part() {
    echo "== $*"
}

# What is tried, and the command that has to succeed. If it fails, its output is shown.
try() {
    local what="$1" said status=0
    shift
    said=$("$@" 2>&1) || status=$?
    if [ $status -eq 0 ]; then
        echo "ok     $what"
    else
        faults=$((faults + 1))
        echo "FAULT  $what (status $status)"
        # shellcheck disable=SC2001 # lines
        sed 's/^/       | /' <<<"$said"
    fi
}

# What is tried, what should come, and what came.
same() {
    if [ "$2" = "$3" ]; then
        echo "ok     $1"
    else
        faults=$((faults + 1))
        printf 'FAULT  %s\n       wanted: %.400s\n       came:   %.400s\n' "$1" "$2" "$3"
    fi
}

# What is tried, a pattern as of `case`, and what came.
like() {
    # shellcheck disable=SC2254 # it is a pattern
    case $3 in
        $2) echo "ok     $1" ;;
        *)
            faults=$((faults + 1))
            printf 'FAULT  %s\n       wanted: %.400s\n       came:   %.400s\n' "$1" "$2" "$3"
            ;;
    esac
}

# Ends a trial that cannot go on.
go_on_if_good() {
    [ "$faults" -eq 0 ] || end_of_trial
}

# The last line of a trial, and its status.
end_of_trial() {
    if [ "$faults" -eq 0 ]; then
        echo "all is as it should be"
    else
        echo "$faults faults"
        exit 1
    fi
}
