"""The plain checker as a command, which answers as `turnaudit check` does."""

import argparse
import struct
import sys
from pathlib import Path

from .checker import Checker, report
from .reading import read_certificate, read_credentials, read_policy, sightings_of

REFUSED, UNREAD, WRONG_WORDS = 2, 4, 5
TELLS = """\
It prints the report and ends with the status of `turnaudit check`: 0 conforming, 1 not shown, 4 a file that can't be read, 5 wrong words.
It knows no refusals: ask `turnaudit check` first whether it takes these files. What this can't make out at all has status 2.
"""


class Words(argparse.ArgumentParser):
    def error(self, message):
        self.print_usage(sys.stderr)
        self.exit(WRONG_WORDS, f"{self.prog}: {message}\n")


def words_of(words, name):
    parser = Words(prog=name, description="Judges captures by a certificate, slowly and plainly, in Python.", epilog=TELLS,
                   formatter_class=argparse.RawDescriptionHelpFormatter, allow_abbrev=False)
    parser.add_argument("--policy", type=Path, required=True, help="which endpoints are the server's")
    parser.add_argument("--creds", type=Path, help="the server's users and their passwords; without it there are none")
    parser.add_argument("--cert", type=Path, required=True, help="where each datagram is placed")
    parser.add_argument("captures", type=Path, nargs="+", metavar="CAPTURE")
    return parser.parse_args(words)


def judge(asked):
    """The report on these files, and its status."""
    policy = read_policy(asked.policy)
    keys = read_credentials(asked.creds)
    certificate = read_certificate(asked.cert.read_text())
    sightings = sightings_of(policy, [capture.read_bytes() for capture in asked.captures])
    return report(Checker(policy, keys, sightings, *certificate))


def main(words, name):
    asked = words_of(words, name)
    try:
        text, status = judge(asked)
    except OSError as fault:
        print(f"{name}: {fault}", file=sys.stderr)
        return UNREAD
    except (ValueError, LookupError, TypeError, struct.error) as fault:
        print(f"{name}: these files can't be made out ({type(fault).__name__}): `turnaudit check` tells which is refused", file=sys.stderr)
        return REFUSED
    print(text, end="")
    return status
