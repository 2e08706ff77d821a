#!/usr/bin/env python3
"""Judges captures by a certificate with the plain checker of tests/plain, which shares no code with turnaudit.

    tools/second_opinion.py --policy POLICY [--creds CREDENTIALS] --cert CERTIFICATE CAPTURE..

It takes Python alone: no kit and no built program. It prints the report and ends with the status of `turnaudit check`, and judges a call
in a second. It knows no refusals, so of files that turnaudit refuses it says nothing.
"""

import sys
from pathlib import Path

# A folder in which this is installed stays as it is.
sys.dont_write_bytecode = True
sys.path.insert(0, str(Path(__file__).resolve().parent.parent / "tests"))

from plain.command import main

if __name__ == "__main__":
    sys.exit(main(sys.argv[1:], "second_opinion"))
