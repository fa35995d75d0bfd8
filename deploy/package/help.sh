# shellcheck shell=dash
# Help for `rooms`: the launcher at the top of the repository and /usr/bin/rooms source this file. The program has no
# help of its own. The functions here answer before it, or say on standard error what can be seen from outside after it
# has answered `unavailable`. Standard output and status are always the program's.
#
# The script that sources this file sets `help_folder`, where help.txt is, and `help_pages`, a line that says where the
# guides are. It works in sh and bash, also under `set -euo pipefail`.
: "${help_folder:?}" "${help_pages:?}"

say() {
    echo "rooms: $*" >&2
}

# Whether the words ask for help: -h, --help or help, also after a line's name (`rooms import --help`); or no words in
# a terminal.
asks_for_help() {
    case $# in
        0) [ -t 0 ] ;;
        1) case $1 in -h | --help | help) true ;; *) false ;; esac ;;
        2) case $2 in -h | --help) true ;; *) false ;; esac ;;
        *) false ;;
    esac
}

print_help() {
    cat "$help_folder/help.txt"
    echo "$help_pages"
}

# Runs the program with the words after it. The files that it makes are for its user alone. If nothing has to be
# explained afterwards, it replaces this shell (exec). `serve` is such a line: it is explained before, since it runs
# for long.
run_program() {
    local program="$1" status=0
    shift
    umask 077
    case ${1-rehearse} in
        rehearse | words) exec "$program" "$@" ;;
        serve)
            explain quiet "$@"
            exec "$program" "$@"
            ;;
    esac
    # It ends when this shell is ended, by whatever signal.
    if command -v setpriv >/dev/null; then
        setpriv --pdeathsig TERM -- "$program" "$@" || status=$?
    else
        "$program" "$@" || status=$?
    fi
    case $status in
        2) say "\`rooms --help\` lists the lines" ;;
        3) explain aloud "$@" ;;
        # A signal ended it, and ends this shell as well.
        129 | 13[0-9] | 14[0-3]) kill -s "$(kill -l "$status")" $$ ;;
    esac
    return "$status"
}

# Prints what prevents a line, as far as it can be seen from outside. With `aloud` it also says if it sees nothing.
explain() {
    local how="$1" line="${2-}" file='' port='' path='' place=0 found=''
    shift
    while [ $# -gt 0 ]; do
        case $1 in
            --db | --port | --count | --seed)
                case $1 in --db) file=${2-} ;; --port) port=${2-} ;; esac
                [ $# -lt 2 ] || shift
                ;;
            --db=*) file=${1#--db=} ;;
            --port=*) port=${1#--port=} ;;
            --) ;;
            *)
                place=$((place + 1))
                [ $place -ne 4 ] || path=$1
                ;;
        esac
        shift
    done
    [ -z "$file" ] || explain_file "$line" "$file"
    [ "$line" != import ] || [ -z "$path" ] || explain_list "$path"
    [ -z "$port" ] || explain_port "$port"
    if [ -z "$found" ] && [ "$how" = aloud ]; then
        say "no cause can be seen from outside; another program may have held the file for a moment"
        say "look (\`rooms do --db FILE round\`, \`rooms\`, \`people\`), and repeat the line only if it had no effect"
    fi
}

# Prints a cause.
hinders() {
    say "$*"
    found=yes
}

who() {
    id -un 2>/dev/null || id -u
}

# Owner and mode of a file, as `clerk, rw-------`.
owner() {
    stat -Lc '%U, %A' -- "$1" 2>/dev/null || echo "not known"
}

explain_file() {
    local line="$1" file="$2" folder
    folder=$(dirname -- "$file")
    if [ ! -d "$folder" ]; then
        hinders "there is no folder $folder"
    elif [ ! -x "$folder" ]; then
        hinders "$(who) may not look into the folder $folder ($(owner "$folder"))"
    elif [ -d "$file" ]; then
        hinders "$file is a folder"
    elif [ ! -e "$file" ]; then
        [ "$line" = new ] || hinders "there is no file $file$(near "$folder" "$file")"
        [ "$line" != new ] || [ -w "$folder" ] || hinders "$(who) may not make files in $folder ($(owner "$folder"))"
        explain_disk "$folder"
    elif [ ! -f "$file" ]; then
        hinders "$file is no plain file"
    else
        explain_office "$file"
        explain_disk "$folder"
    fi
}

# A file that is there.
explain_office() {
    local file="$1" part folder
    folder=$(dirname -- "$file")
    for part in "$file" "$file-wal"; do
        [ -e "$part" ] || continue
        [ -r "$part" ] || hinders "$(who) may not read $part ($(owner "$part"))"
        [ -w "$part" ] || hinders "$(who) may not write $part ($(owner "$part")$(read_only "$part"))"
    done
    [ -e "$file-wal" ] || [ -w "$folder" ] || hinders "$(who) may not make the log in $folder ($(owner "$folder"))"
    if [ -r "$file" ] && [ -s "$file" ] && [ "$(head -c 15 -- "$file" | tr -d '\0')" != "SQLite format 3" ]; then
        hinders "$file is no database: is another file meant?"
    fi
    if [ -e "$file.second" ] || [ -e "$file.next" ]; then
        hinders "the keeper is replacing $file: use rooms-office, and start the keeper if it does not run"
    elif [ "$(stat -Lc %h -- "$file")" != 1 ]; then
        hinders "$file has a second name (a hard link): remove that name"
    fi
    [ ! -e "$file-journal" ] || hinders "sqlite3 was stopped while it wrote: open $file once with sqlite3"
    explain_lock "$file"
}

# Who holds the file. Its lock has the file's number, and no process. A process shows its open files to root, and to its own
# account if it has no capability; the keeper and its server have one.
explain_lock() {
    local number process account
    number=$(stat -Lc %i -- "$1")
    lslocks --noheadings --raw --output INODE 2>/dev/null | grep -qx "$number" || return 0
    process=$(find -L /proc/[0-9]*/fd -maxdepth 1 -samefile "$1" -printf '%h\n' 2>/dev/null | sed -n '1s|/proc/\([0-9]*\)/.*|\1|p') ||
        true
    if [ -n "$process" ] && account=$(stat -c %U "/proc/$process" 2>/dev/null); then
        hinders "$1 is in use, by process $process ($(cat "/proc/$process/comm"), of $account)"
    else
        hinders "$1 is in use; only root can see by which program"
    fi
}

# Prints ", on a file system that is read only" if it is.
read_only() {
    case ,$(findmnt -no OPTIONS --target "$1" 2>/dev/null), in
        *,ro,*) echo ", on a file system that is read only" ;;
    esac
}

explain_disk() {
    local size kilobytes files
    read -r size kilobytes files <<END
$(df -k --output=size,avail,iavail -- "$1" 2>/dev/null | tail -n 1)
END
    # A file system of the kernel's own has no size.
    [ "${size:-0}" -gt 0 ] 2>/dev/null || return 0
    [ "$kilobytes" -ge 64 ] || hinders "the disk of $1 is full: $kilobytes KB are free"
    case $files in 0 | 1) hinders "the disk of $1 takes no more files" ;; esac
}

explain_list() {
    local path="$1" folder
    folder=$(dirname -- "$path")
    if [ -d "$path" ]; then
        hinders "the list $path is a folder"
    elif [ ! -e "$path" ]; then
        hinders "there is no list $path$(near "$folder" "$path")"
    elif [ ! -r "$path" ]; then
        hinders "$(who) may not read the list $path ($(owner "$path"))"
    fi
}

# A port on which a program listens, at 127.0.0.1 or at all addresses; or one that is reserved for root.
explain_port() {
    local port="$1" sign user lowest=1024 capabilities
    case $port in '' | *[!0-9]* | ??????*) return 0 ;; esac
    sign=$(printf ':%04X' "$port")
    user=$(awk -v port="$sign" '
        $4 == "0A" && $2 ~ "^(0100007F|0+|0+FFFF00000100007F)" port "$" { print $8; exit }' \
        /proc/self/net/tcp /proc/self/net/tcp6 2>/dev/null) || true
    [ -z "$user" ] ||
        hinders "port $port is taken: a program of $(id -un "$user" 2>/dev/null || echo "$user") listens on it"
    lowest=$(cat /proc/sys/net/ipv4/ip_unprivileged_port_start 2>/dev/null) || lowest=1024
    # Bit 10 is the capability that root has, and that the keeper's unit gives to the server.
    capabilities=$(sed -n 's/^CapEff:[[:space:]]*//p' /proc/self/status 2>/dev/null) || capabilities=0
    [ "$port" -ge "$lowest" ] || [ $((0x${capabilities:-0} & 1024)) -ne 0 ] ||
        hinders "ports below $lowest are for root: take another one"
}

# Prints "; is NAME meant?" if a file of the folder has nearly the name of the one that is missing.
near() {
    find "$1" -maxdepth 1 -type f ! -name '*-wal' ! -name '*-shm' ! -name '*-journal' -printf '%f\n' 2>/dev/null |
        head -n 500 | awk -v wanted="$(basename -- "$2")" '
            function least(a, b, c) { a = a < b ? a : b; return a < c ? a : c }
            # How many letters have to be inserted, removed or changed.
            function distance(a, b,    i, j, before, now) {
                for (j = 0; j <= length(b); j++) before[j] = j
                for (i = 1; i <= length(a); i++) {
                    now[0] = i
                    for (j = 1; j <= length(b); j++)
                        now[j] = least(before[j] + 1, now[j - 1] + 1,
                                       before[j - 1] + (substr(a, i, 1) != substr(b, j, 1)))
                    for (j = 0; j <= length(b); j++) before[j] = now[j]
                }
                return before[length(b)]
            }
            BEGIN { best = 3; if (best > length(wanted) / 3) best = int(length(wanted) / 3) }
            length($0) < 100 && (far = distance(tolower($0), tolower(wanted))) <= best {
                if (far < best || !name) name = $0
                best = far
            }
            END { if (name) printf "; is %s meant?", name }'
}
