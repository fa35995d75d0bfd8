#!/bin/sh
# /usr/bin/rooms: prints help and version, and hands everything else to the proved program, rooms-program. It passes the
# program's answers on unchanged; after `unavailable` it prints on standard error what can be seen from outside.
help_folder=/usr/lib/rooms
help_pages="Guides: /usr/share/doc/rooms. Lines, answers, lists, tables: man 5 rooms. By the keeper: man rooms-office."
# shellcheck source=deploy/package/help.sh
. "$help_folder/help.sh"

if asks_for_help "$@"; then
    print_help
elif [ $# -eq 1 ] && [ "$1" = --version ]; then
    cat "$help_folder/release"
else
    run_program "$help_folder/rooms-program" "$@"
fi
