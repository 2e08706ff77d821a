#!/bin/bash
# kit.sh PROGRAM TURNEXPLAIN: tries the conformance kit of kit/.
#
# First without a network: each situation with a server that keeps to the RFCs, and each fault of tests/kit/faults.py with the situation
# that it has to make red. Then kit/run itself, with real sockets: what it needs and isn't there, that server, a run without root, and
# coturn's stored results. What this machine can't do is skipped, and said.
export PYTHONDONTWRITEBYTECODE=1
program=$(realpath "$1") || exit 1
explains=$(realpath "$2") || exit 1
for needed in "$program" "$explains"; do
    if [ ! -x "$needed" ]; then echo "kit: there is no program $needed"; exit 1; fi
done
cd "$(dirname "$0")/.." || exit 1
failed=0
python3 tests/kit/broken_servers.py "$program" "$explains" || failed=1
python3 tests/kit/real_runs.py "$program" "$explains" || failed=1
exit $failed
