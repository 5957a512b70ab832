"""Starts the command for people; ../stick runs it."""

import sys

if sys.version_info < (3, 9):
    print("stick: Python 3.9 or newer is needed", file=sys.stderr)
    sys.exit(2)
try:
    from fixlomand.command import main

    sys.exit(main(sys.argv[1:]))
except KeyboardInterrupt:
    print("stick: interrupted", file=sys.stderr)
    sys.exit(130)
