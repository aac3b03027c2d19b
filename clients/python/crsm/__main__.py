"""Runs the client as a command: `python3 -m crsm`."""

import sys

from .commands import main

sys.exit(main())
