#!/bin/bash
# captures.sh PROGRAM: judges the captures of real servers in examples/ and compares with what is expected; then tries the examples of
# docs/REFUSALS.md, and the filter of docs/VERDICTS.md where tshark is installed.
#
# Of each folder: status and answer, but for the moment, which the certificate chooses, by `audit`, by `check` with the stored certificate, and by
# `check` with the certificate that `find` writes; and the number of sightings of each interface, seen by placing one more than the last
# (S3, no such sighting) and the last (another rule) at moment 0.
program=$(realpath "$1") || exit 1
. "$(dirname "$0")/telling.sh" || exit 1
cd "$(dirname "$0")/../examples" || exit 1
scratch=$(mktemp -d)
trap 'rm -rf "$scratch"' EXIT

without_moment() {
    sed 's/ moment .*//' "$1"
}

names_of() {
    if [ -f client.pcapng ]; then echo client.pcapng peer.pcapng; else echo cap.pcapng; fi
}

judge() { # NAME WORDS.. : the answer to the words, with the folder's policy, users and captures, is as expected
    name=$1
    shift
    "$program" "$@" --policy policy --creds creds $(names_of) > "$scratch/answer" 2>&1
    status=$?
    same=no
    if [ "$status" = "$(cat status)" ] && [ "$(without_moment "$scratch/answer")" = "$(without_moment expected)" ]; then same=yes; fi
    tell "$name" "$same"
}

rule_of_drop() { # SIGHT
    printf 'turnaudit-certificate 1\ndrop %s 0 0\nend\n' "$1" > "$scratch/drop"
    "$program" check --policy policy --cert "$scratch/drop" $(names_of) 2>&1 | sed -n 's/^rule \(S[0-9]*\) .*/\1/p'
}

# The release names the kit that it was proved with last. Where another one has proved it now, that is told, and fails nothing.
if command -v rt > /dev/null; then
    case $("$program" --version) in
        *", proved with $(rt version)") ;;
        *) echo "note: the release names another kit than the one that is here, $(rt version)" ;;
    esac
fi

for folder in */; do
    [ -f "$folder/policy" ] || continue
    cd "$folder" || exit 1
    judge "${folder%/} by audit" audit
    if [ -f certificate ]; then judge "${folder%/} by check" check --cert certificate; fi
    if "$program" find --policy policy --creds creds $(names_of) > "$scratch/found" 2> "$scratch/refusal"; then
        judge "${folder%/} by find and check" check --cert "$scratch/found"
    else
        same=no
        if [ "$(cat "$scratch/refusal")" = "$(cat expected)" ]; then same=yes; fi
        tell "${folder%/} by find" "$same"
    fi
    if [ -f sightings ]; then
        while read -r interface count; do
            same=no
            if [ "$(rule_of_drop "$interface.$count")" = S3 ] && [ "$(rule_of_drop "$interface.$((count - 1))")" = S4 ]; then same=yes; fi
            tell "${folder%/} interface $interface" "$same"
        done < sightings
    fi
    cd ..
done
echo "captures: $passed passed, $failed failed"
if ! ../tests/refusals.py "$program"; then failed=$((failed + 1)); fi
if ! ../tests/wireshark_filter.sh; then failed=$((failed + 1)); fi
[ "$failed" = 0 ]
