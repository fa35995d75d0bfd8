#!/usr/bin/env bash
# Times `rooms migrate` over an office of version 1 with 2,000 people and 80,000 list entries, which Python's sqlite3 writes
# in a file, in the documented order of its tables and in that of the program; then it imports a list of 2,000 grades, and
# another one over it. What the file holds is compared with what was written, and the export with the grades that were sent.
# Each line is the whole process of the program. It ends with a status that is not 0 if a migration takes more than 5 seconds
# of a processor, or a list of grades more than one, whatever else the machine does.
#
#     bench/migrate.sh
set -euo pipefail
. "$(dirname "$0")/program.sh"
exec python3 bench/migrate.py "$program"
