"""Runs the command as `python3 -m mftb.page`."""

import sys

from mftb.page.command import main

if __name__ == "__main__":
    sys.exit(main())
