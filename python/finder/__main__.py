"""The command `python -m finder`, which is the shell command `finder`."""

import sys

from .commands.dispatch import main

if __name__ == "__main__":
    sys.exit(main())
