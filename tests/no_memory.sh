#!/bin/bash
# no_memory.sh PROGRAM: each allocation of `audit`, `find`, `check` and `live` on a capture of a real server is refused in turn; the answer is status 3 and
# one line each time, and nothing on standard output; with several workers that, or the answer of one, also where two lanes break a rule. So are those of `audit`
# and `find` on a capture for which a part of each window is walked over, and of `check` by two workers on one client's over 16,384 events. Of the
# certificate for 24 clients, of which `find` makes all lines before it writes any, some allocations are refused. Of one with more lines than
# that (16,384) the last allocations are refused, and a front of it may be out: with status 3 it is no certificate. With several workers on 24 clients the last allocations are refused in turn, and then the threads
# from each number on: the answer is that of one thread, or status 3. It needs gcc.
program=$(realpath "$1") || exit 1
cd "$(dirname "$0")" || exit 1
scratch=$(mktemp -d)
trap 'rm -rf "$scratch"' EXIT
gcc -shared -fPIC -O1 -o "$scratch/failing_malloc.so" failing_malloc.c -ldl || exit 1
cd ../examples/coturn-channels-two-files || exit 1
failed=0

inputs=(--policy policy --creds creds client.pcapng peer.pcapng)

refuse_each() { # NAME WORDS.. : by several workers the answer may be that of one, too
    name=$1
    shift
    number=0
    "$program" "$@" "${inputs[@]}" > "$scratch/whole"
    status_of_whole=$?
    while true; do
        number=$((number + 1))
        FAIL_AT=$number LD_PRELOAD="$scratch/failing_malloc.so" "$program" "$@" "${inputs[@]}" > "$scratch/answer" 2> "$scratch/told"
        status=$?
        if grep -q '^allocations: ' "$scratch/told"; then break; fi
        if [[ " $* " == *" --workers "* ]] && [ "$status" = "$status_of_whole" ] && cmp -s "$scratch/whole" "$scratch/answer" && [ ! -s "$scratch/told" ]; then continue; fi
        if [ "$status" != 3 ] || [ -s "$scratch/answer" ] || [ "$(cat "$scratch/told")" != "turnaudit: out of memory" ]; then
            failed=$((failed + 1))
            echo "failed: $name, allocation $number: status $status, $(head -c 200 "$scratch/told")"
        fi
    done
    echo "$name: $((number - 1)) allocations refused in turn"
}

refuse_each audit audit
refuse_each find find
refuse_each check check --cert certificate
refuse_each live live
refuse_each "check by two workers" check --cert certificate --workers 2
refuse_each "audit by two workers" audit --workers 2
refuse_each "find by two workers" find --workers 2
refuse_each "find by four workers" find --workers 4

# By a skew of a second the walk over whole windows finds no order of this random capture, and one over a tenth of each does.
python3 ../../tests/random_captures.py --write "$scratch/wide" --first 70218
echo "skew-us 1000000" >> "$scratch/wide/policy"
inputs=(--policy "$scratch/wide/policy" --creds "$scratch/wide/creds" "$scratch"/wide/*.pcapng)
refuse_each "audit by a part of the windows" audit
refuse_each "find by a part of the windows" find

# Of one client's many events the workers share placement.
python3 ../../bench/make_capture.py "$scratch/many" --clients 1 --datagrams 13000
inputs=(--policy "$scratch/many/policy" --creds "$scratch/many/creds" "$scratch/many/client.pcapng" "$scratch/many/peer.pcapng")
refuse_each "check of many events by two workers" check --cert "$scratch/many/certificate" --workers 2

# Both lanes break a rule, the second one earlier: by no refusal the first one's breach is told.
cd ../../tests/two-lanes-broken || exit 1
inputs=(--policy policy --cert certificate cap.pcapng)
for workers in 1 2 7; do
    refuse_each "check of two broken lanes, workers: $workers" check --workers "$workers"
    if ! cmp -s "$scratch/whole" expected; then
        failed=$((failed + 1))
        echo "failed: two broken lanes, workers: $workers"
    fi
done

cd ../../examples/coturn-24-clients || exit 1
"$program" find --policy policy --creds creds cap.pcapng > "$scratch/certificate" || exit 1
check_all() { # WORKERS: the answer and the status of `check` on the folder's capture
    LD_PRELOAD="$scratch/failing_malloc.so" "$program" check --policy policy --creds creds --cert "$scratch/certificate" --workers "$1" cap.pcapng \
        > "$scratch/answer" 2> "$scratch/told"
    echo "status $?" >> "$scratch/answer"
}

check_all 1
cp "$scratch/answer" "$scratch/of_one"
FAIL_AT=1000000000 check_all 2
count=$(sed -n 's/^allocations: //p' "$scratch/told")
same=0
for number in $(seq "$((count - 400))" "$count"); do
    FAIL_AT=$number check_all 2
    if cmp -s "$scratch/of_one" "$scratch/answer"; then
        same=$((same + 1))
    elif [ "$(cat "$scratch/answer")" != "status 3" ] || [ "$(cat "$scratch/told")" != "turnaudit: out of memory" ]; then
        failed=$((failed + 1))
        echo "failed: two workers, allocation $number: $(head -c 200 "$scratch/answer" "$scratch/told")"
    fi
done
echo "two workers: the last 401 of $count allocations refused in turn, $same times the answer of one thread"
for workers in 2 7 256; do
    for number in 1 2 3; do
        THREADS_FAIL_AT=$number check_all "$workers"
        if ! cmp -s "$scratch/of_one" "$scratch/answer"; then
            failed=$((failed + 1))
            echo "failed: $workers workers, no thread from number $number on"
        fi
    done
done

find_all() { # NUMBER: `find` on the captures, with the allocation of that number refused
    FAIL_AT=$1 LD_PRELOAD="$scratch/failing_malloc.so" "$program" find --policy policy --creds creds "${captures[@]}"
}

count_find() { # how many allocations `find` makes
    find_all 1000000000 > "$scratch/whole" 2> "$scratch/told"
    count=$(sed -n 's/^allocations: //p' "$scratch/told")
}

refuse_find() { # NAME NUMBERS..: each is refused in turn; fronts is then how often a front of the certificate was out
    name=$1
    shift
    fronts=0
    for number in "$@"; do
        find_all "$number" > "$scratch/answer" 2> "$scratch/told"
        status=$?
        size=$(stat -c %s "$scratch/answer")
        if [ "$status" != 3 ] || [ "$(cat "$scratch/told")" != "turnaudit: out of memory" ] || ! head -c "$size" "$scratch/whole" | cmp -s - "$scratch/answer"; then
            failed=$((failed + 1))
            echo "failed: $name, allocation $number: status $status, $size bytes"
        fi
        if [ "$size" -gt 0 ]; then fronts=$((fronts + 1)); fi
    done
    echo "$name: $# of $count allocations refused, a front of the certificate out $fronts times"
}

captures=(cap.pcapng)
count_find
refuse_find "find on 24 clients" $(seq 1 97 "$count")
if [ "$fronts" != 0 ]; then
    failed=$((failed + 1))
    echo "failed: a front of a certificate with few lines was out"
fi

python3 ../../bench/make_capture.py "$scratch/large" --clients 24 --datagrams 24000 || exit 1
cd "$scratch/large" || exit 1
captures=(client.pcapng peer.pcapng)
count_find
refuse_find "find on 24,000 datagrams" $(seq "$((count - 100))" "$count")
if [ "$fronts" = 0 ]; then
    failed=$((failed + 1))
    echo "failed: no front of the certificate was ever out"
fi
echo "$failed failed"
[ "$failed" = 0 ]
