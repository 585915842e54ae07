"""Runs the command line: `python -m ploverchaise`."""
import sys

from ._command_line import main

if __name__ == "__main__":
    sys.exit(main())
