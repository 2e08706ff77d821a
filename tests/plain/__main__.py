"""`python3 -m tests.plain --policy P [--creds C] --cert F CAPTURE..`, at the top of the repository."""

import sys

from .command import main

sys.exit(main(sys.argv[1:], "tests.plain"))
