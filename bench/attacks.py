#!/usr/bin/env python3
"""Captures that strangers would make to keep the program busy, beside ordinary ones of as many datagrams of the same size.

    python3 bench/attacks.py PROGRAM [--scale 4]

Each is built at n and at 4n datagrams and timed by `audit`, `find`, and `check` with the certificate that `find` writes: processor
seconds, the least of three runs. It prints, of each, the seconds, how many times those at n the ones at 4n are, and how many times
the ordinary ones (of `find` what `audit` takes of those, since `find` judges only what it doubts). It fails where 4n takes over 6 times
as long as n (n log n and the caches come to 5, what is quadratic to 16), or an attack takes over 8 times as long as the ordinary
capture, or over the times of ACCEPTED, which says why. It takes some ten minutes. With --only it is these captures alone.

  users       one client with an allocation, and a Refresh by another user each time, answered by 441
  clients     every request by another client, their addresses in order, and each answered
  colliding   four requests by each of 65,536 clients whose addresses meet in the table of clients where its seed is 0 (needs gcc)
  denied      64 Send indications of equal data to a peer without a permission, in messages of 54 kB that are all attributes, and departures
              that carry it all the same, each with 7 requests of other clients about it, for which it waits
  refused     Send indications of two data in turn to a peer without a permission, each relayed all the same
  equal_sends clients that each send the same data to one peer, in Send indications, relayed after the last of them
  equal_channels the same in channels
  unasked     departures with the data of the last Send indication, which was relayed already, so that no arrival explains them
  silent      Allocate requests that nobody answers, all of one transaction, and at the end a success to it for each
  copies      one datagram of a peer again and again, each relayed to the client
  same        one Binding request again and again, its success again and again: one transaction, one payload, one address
  permissions one client that asks for permissions for up to 60,000 peers, and sends to each
  channels    one client that binds up to 16,383 channels, more numbers than RFC 8656 has, and sends by each
  handed      clients that are given one relayed address in turn, each giving it up again
  outstanding one client whose Refreshes of 0 all wait for their answers at once, and at the end a departure that nothing asked for
  reversed_stamps 64 interfaces of one file, each with its datagrams stamped from the last to the first

Those below are such that `audit` needs the passes, and finds no certificate. The last datagrams of each grant one relayed address to two
clients, but for `allocates`, `eight_times` and `held`:

  allocates   one client whose Allocates and deletions all wait for their answers at once, and two more allocations than deletions
  two_holders two clients that are granted one relayed address in turn, each requesting it before the other one's deletion has its response
  many_holders the same with a thousand clients
  held        a thousand clients that are granted one relayed address again and again, and none of which gives it up
  churn       a hundred clients, each of which makes and deletes an allocation again and again
  channels_conflict one client with up to 4,096 channels, and data by each
  permissions_conflict one client that asks for 5,000 permissions, one by one, again and again
  clocks      a hundred interfaces, each a microsecond ahead of the one before; requests are on one and their responses on the next
  ring        64 interfaces, each after the one before, in windows of a millisecond
  far_apart   1,024 interfaces, each five milliseconds ahead of the one before, in windows of ten seconds
  eight_times `allocates` of an eighth of the datagrams, given as eight captures

bench/attack_captures.py builds them, with the messages of bench/make_capture.py.
"""

import argparse
import pathlib
import resource
import shutil
import subprocess
import sys
import tempfile

import attack_captures as made

# How many times as long as the ordinary capture each may take.
MOST = 8
# The captures for which that is more, and why.
PASSES = "no order is found, so the passes do 8 units of work for each datagram, and 16,000 more (docs/FINDING.md)"
PARTS = f"{PASSES}, and a fourth of that for each of five parts of the windows"
ACCEPTED = {
    made.allocates: (32, PASSES),
    made.two_holders: (26, PASSES),
    made.many_holders: (24, PASSES),
    made.held: (30, PASSES),
    made.churn: (24, PASSES),
    made.channels_conflict: (20, PASSES),
    made.permissions_conflict: (18, PASSES),
    made.clocks: (18, PARTS),
    made.ring: (18, PARTS),
    made.far_apart: (56, PARTS),
    made.eight_times: (50, PASSES),
}
# The datagrams at n of scale 1, and how many bytes of data each has; TINY is not scaled.
SMALL, LARGE, TINY = (32_768, 60), (512, 54_000), (140, 60)
CAPTURES = {
    made.users: SMALL,
    made.clients: SMALL,
    made.silent: SMALL,
    made.copies: SMALL,
    made.denied: SMALL,
    made.refused: SMALL,
    made.equal_sends: SMALL,
    made.equal_channels: SMALL,
    made.unasked: LARGE,
    made.same: SMALL,
    made.permissions: SMALL,
    made.channels: SMALL,
    made.handed: SMALL,
    made.outstanding: SMALL,
    made.reversed_stamps: SMALL,
    made.colliding: SMALL,
    made.allocates: SMALL,
    made.two_holders: SMALL,
    made.many_holders: SMALL,
    made.held: SMALL,
    made.churn: SMALL,
    made.channels_conflict: SMALL,
    made.permissions_conflict: SMALL,
    made.clocks: SMALL,
    made.ring: SMALL,
    made.far_apart: SMALL,
    made.eight_times: TINY,
}


def seconds(words):
    """The processor time of a command, and what it printed."""
    before = resource.getrusage(resource.RUSAGE_CHILDREN)
    run = subprocess.run(words, stdout=subprocess.PIPE, stderr=subprocess.PIPE, check=False)
    after = resource.getrusage(resource.RUSAGE_CHILDREN)
    if run.returncode not in (0, 1):
        sys.exit(f"{' '.join(map(str, words))}: status {run.returncode}, {run.stderr.decode()}")
    return after.ru_utime + after.ru_stime - before.ru_utime - before.ru_stime, run.stdout


def timed(program, explains, folder):
    """The least seconds of three runs of each command on the folder; of `faults` where there is a program that has it."""
    inputs = ["--policy", folder / "policy", "--creds", folder / "creds"]
    captures = sorted(folder.glob("*.pcapng"))
    certificate = folder / "certificate"
    certificate.write_bytes(seconds([program, "find", *inputs, *captures])[1])
    commands = {"audit": [], "find": [], "check": ["--cert", certificate]}
    runs = {name: [program, name, *inputs, *words, *captures] for name, words in commands.items()}
    if explains:
        runs["faults"] = [explains, "faults", *inputs, *captures]
    return {name: min(seconds(words)[0] for _ in range(3)) for name, words in runs.items()}


def main():
    words = argparse.ArgumentParser(description="Times captures that strangers would make to keep the program busy.")
    words.add_argument("program", type=pathlib.Path)
    words.add_argument("--scale", type=float, default=4)
    words.add_argument("--only", nargs="+", help="the captures that are timed, by name")
    words.add_argument("--explains", type=pathlib.Path, help="turnexplain, whose command faults is timed too")
    asked = words.parse_args()
    program, explains = asked.program.resolve(), asked.explains and asked.explains.resolve()
    attacks = {build: kind for build, kind in CAPTURES.items() if not asked.only or build.__name__ in asked.only}
    if made.colliding in attacks and not shutil.which("gcc"):
        print("no gcc, so no clients that collide")
        del attacks[made.colliding]
    failed = 0
    with tempfile.TemporaryDirectory() as scratch:
        scratch = pathlib.Path(scratch)
        plain = {}
        print(f"{'capture':21}{'datagrams':>10}{'command':>9}{'n':>9}{'4n':>9}{'4n to n':>9}{'to ordinary':>13}")
        ordinary = [(made.ordinary, kind) for kind in (SMALL, LARGE, TINY) if kind in attacks.values()]
        for build, kind in [*ordinary, *attacks.items()]:
            datagrams, size = kind if kind == TINY else (int(kind[0] * asked.scale), kind[1])
            times = []
            for count in (datagrams, 4 * datagrams):
                folder = scratch / f"{build.__name__}-{size}-{count}"
                build(folder, count, size)
                times.append(timed(program, explains, folder))
                shutil.rmtree(folder)
            if build is made.ordinary:
                plain[datagrams] = times[1]
            most, _ = ACCEPTED.get(build, (MOST, ""))
            for name in times[0]:
                one, four = (time[name] for time in times)
                grows, worse = four / one, four / plain[datagrams]["audit" if name == "find" else name]
                print(f"{build.__name__:21}{datagrams:>10}{name:>9}{one:>9.2f}{four:>9.2f}{grows:>9.1f}{worse:>13.1f}", flush=True)
                if build is not made.ordinary and (grows > 6 or worse > most):
                    failed += 1
    print(f"{failed} failed")
    return 1 if failed else 0


if __name__ == "__main__":
    sys.exit(main())
