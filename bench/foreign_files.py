"""Files that another program than `rooms` wrote, or has open; bench/foreign-files.sh says what is checked."""

import sys

from foreign import changed, earlier, files, taken
from foreign.program import Program, finish


def main(program: str) -> None:
    """Tries all groups, and succeeds if none of them held a surprise."""
    words = Program((program,))
    finish(taken.try_all(words) + earlier.try_all(words) + changed.try_all(words) + files.try_all(words))


if __name__ == "__main__":
    main(*sys.argv[1:])
