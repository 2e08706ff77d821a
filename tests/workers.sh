#!/bin/bash
# workers.sh PROGRAM: asks that the answer doesn't depend on the number of workers: each folder of captures in examples/ by `audit`, by `find`, and by `check` with
# the stored certificate or else the one that `find` writes, with 1, 2, 4 and 256 workers: the same status, and the same bytes on both outputs. So it asks of captures of one
# client that have over 16,384 events, whose placement the workers share, and of their certificate with a breach in one event, also where two pieces of 4,096 meet. And so
# it asks of captures that are refused, which several workers read side by side.
program=$(realpath "$1") || exit 1
cd "$(dirname "$0")/../examples" || exit 1
scratch=$(mktemp -d)
trap 'rm -rf "$scratch"' EXIT
passed=0
failed=0

answer() { # WORKERS WORDS.. : what the program answers to the words, with the folder's policy, users and captures
    workers=$1
    shift
    "$program" "$@" --workers "$workers" --policy policy --creds creds "${captures[@]}" > "$scratch/out.$workers" 2> "$scratch/err.$workers"
    echo $? > "$scratch/status.$workers"
}

compare() { # WORDS.. : the answers by more workers are that of one
    answer 1 "$@"
    for workers in 2 4 256; do
        answer "$workers" "$@"
        same=yes
        for part in out err status; do cmp -s "$scratch/$part.1" "$scratch/$part.$workers" || same=no; done
        if [ "$same" = yes ]; then
            passed=$((passed + 1))
        else
            failed=$((failed + 1))
            echo "failed: ${folder%/} by $1 with $workers workers"
        fi
    done
}

for folder in */; do
    [ -f "$folder/policy" ] || continue
    cd "$folder" || exit 1
    if [ -f client.pcapng ]; then captures=(client.pcapng peer.pcapng); else captures=(cap.pcapng); fi
    compare audit
    compare find
    certificate=certificate
    if ! [ -f certificate ]; then
        certificate=$scratch/found
        "$program" find --policy policy --creds creds "${captures[@]}" > "$certificate" 2> /dev/null
    fi
    compare check --cert "$certificate"
    cd ..
done

python3 ../bench/make_capture.py "$scratch/made/" --clients 1 --datagrams 14000 && cd "$scratch/made" || exit 1
folder=made
captures=(client.pcapng peer.pcapng)
compare audit
compare check --cert certificate
for line in 5 4098 4099 4100 12290; do
    # The moment of that line's event, a second later: it leaves its window, and the events of its lane don't rise.
    sed "${line}s/ 1700000000\([0-9]\{9\}\) / 1700000001\1 /" certificate > changed
    folder="made, line $line"
    compare check --cert changed
    if cmp -s "$scratch/status.1" <(echo 0); then
        failed=$((failed + 1))
        echo "failed: line $line is no breach"
    fi
done

# Several workers read captures side by side, and tell of those that are refused what one tells: a block that is wrong comes before an end that is, whatever their order.
head -c 100000 client.pcapng > cut.pcapng
{ head -c 50000 peer.pcapng; head -c 4096 /dev/zero; } > wrong.pcapng
: > empty.pcapng
refused() { # TOLD CAPTURES.. : the captures are refused so by any number of workers
    told=$1
    shift
    captures=("$@")
    folder="refused: $*"
    compare audit
    compare check --cert certificate
    if ! grep -q -- "$told" "$scratch/err.1"; then
        failed=$((failed + 1))
        echo "failed: $* is told by $(cat "$scratch/err.1")"
    fi
}
refused 'C[0-9]* in capture 1' cut.pcapng wrong.pcapng
refused 'C[0-9]* in capture 0' wrong.pcapng cut.pcapng
refused 'C[0-9]* in capture 0' cut.pcapng peer.pcapng
refused 'C[0-9]* in capture 1' client.pcapng cut.pcapng
refused 'C[0-9]* in capture 2' client.pcapng peer.pcapng wrong.pcapng missing.pcapng
refused 'read failed' client.pcapng missing.pcapng wrong.pcapng
refused 'C[0-9]* in capture 1' client.pcapng wrong.pcapng missing.pcapng
refused 'V4 in capture 16' $(yes empty.pcapng | head -n 17)
refused 'C[0-9]* in capture 3' $(yes empty.pcapng | head -n 3) wrong.pcapng $(yes empty.pcapng | head -n 13)
refused 'C[0-9]* in capture 3' $(yes empty.pcapng | head -n 3) wrong.pcapng $(yes empty.pcapng | head -n 12)
echo "workers: $passed passed, $failed failed"
[ "$failed" = 0 ] && [ "$passed" -gt 0 ]
