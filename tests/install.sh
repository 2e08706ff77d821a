#!/bin/bash
# install.sh PROGRAM TURNPREP TURNEXPLAIN: installs the programs into empty folders, once below /usr/local and once into a home folder, and
# makes a Debian package of them twice. It checks that every file is at its place and no other one is there, that each installed program
# reports the verdict on a stored call, that each link of each installed document leads to a file, that the installed tools work from there,
# that `make uninstall` removes exactly what was installed, that a program that isn't built is named and nothing is proved, that `make help`
# has every target, and that the repository's folder is as it was. Of the package: that both are the same, the second made with another
# umask, zone and locale, that its code is the program's, and its lists of files and materials. What lintian warns of is a failure.
# Without dpkg-deb or lintian their part is skipped, with a note.
program=$(realpath "$1") || exit 1
prepares=$(realpath "$2") || exit 1
explains=$(realpath "$3") || exit 1
. "$(dirname "$0")/telling.sh" || exit 1
cd "$(dirname "$0")/.." || exit 1
scratch=$(mktemp -d)
trap 'rm -rf "$scratch"' EXIT
export PYTHONDONTWRITEBYTECODE=1
call=examples/coturn-channels-two-files

same() { # NAME FILE FILE
    if diff "$2" "$3"; then tell "$1" yes; else tell "$1" no; fi
}

tree() { # what lies in the repository's folder, without what others may write there meanwhile
    find . \( -path ./.git -o -path './crates/*/out' -o -path './crates/*/must-fail' \) -prune -o -print | LC_ALL=C sort
}

files() { # FOLDER : the files below it, documents and examples without their names
    (cd "$1" && find . -type f -o -type l) | sed 's|^\./||; s#\(share/doc/turnaudit/\(docs\|examples\|tests/plain\)\)/.*#\1/..#' | LC_ALL=C sort -u
}

verdict() { # NAME PROGRAM : it gives the verdict on the stored call
    "$2" audit --policy $call/policy --creds $call/creds $call/client.pcapng $call/peer.pcapng > "$scratch/answer" 2>&1
    status=$?
    ok=no
    if [ "$status" = "$(cat $call/status)" ] && cmp -s "$scratch/answer" $call/expected; then ok=yes; fi
    tell "$1: the verdict" "$ok"
}

beside() { # NAME FOLDER : the programs beside it start, and one of them tells that verdict, too
    "$2/turnexplain" verdict --policy $call/policy --creds $call/creds $call/client.pcapng $call/peer.pcapng > "$scratch/answer" 2>&1
    status=$?
    ok=no
    if [ "$status" = "$(cat $call/status)" ] && "$2/turnprep" --help > "$scratch/told" 2>&1; then ok=yes; fi
    tell "$1: the programs beside it" "$ok"
}

documents() { # NAME FOLDER : each link of the documents leads to a file, and the tools work from there, and leave nothing
    (cd "$2" && find . | LC_ALL=C sort) > "$scratch/before_use"
    if python3 tests/installed_links.py "$2" > "$scratch/told"; then tell "$1: the links" yes; else cat "$scratch/told"; tell "$1: the links" no; fi
    env -u PYTHONDONTWRITEBYTECODE "$2/tools/second_opinion.py" --policy $call/policy --creds $call/creds --cert $call/certificate \
        $call/client.pcapng $call/peer.pcapng > "$scratch/answer" 2>&1
    status=$?
    ok=no
    if [ "$status" = "$(cat $call/status)" ] && cmp -s "$scratch/answer" $call/expected; then ok=yes; fi
    tell "$1: the second opinion" "$ok"
    env -u PYTHONDONTWRITEBYTECODE TURNAUDIT="$program" "$2/examples/fleet/run_case" "$2/examples/fleet/cases" "$scratch/results" ams-1 > "$scratch/told" 2>&1
    env -u PYTHONDONTWRITEBYTECODE "$2/tools/collect.py" "$2/examples/fleet/cases" "$scratch/results" > "$scratch/answer" 2> "$scratch/told"
    status=$?
    ok=no
    if [ "$status" = 6 ] && grep -q '^ams-1 *0 *conforming 90 datagrams 1 lanes' "$scratch/answer"; then ok=yes; fi
    tell "$1: the fleet's tools" "$ok"
    (cd "$2" && find . | LC_ALL=C sort) > "$scratch/after_use"
    same "$1: the tools leave nothing" "$scratch/before_use" "$scratch/after_use"
}

fails_with() { # NAME LINE COMMAND.. : it fails, with a line that has this
    name=$1
    line=$2
    shift 2
    ok=no
    if ! "$@" > "$scratch/told" 2>&1 && grep -q -F "$line" "$scratch/told"; then ok=yes; else cat "$scratch/told"; fi
    tell "$name" "$ok"
}

# Whatever asks for a proof is noted.
mkdir "$scratch/bin"
printf '#!/bin/sh\necho "$@" >> %s\nexit 1\n' "$scratch/proved" > "$scratch/bin/rt"
chmod +x "$scratch/bin/rt"
PATH=$scratch/bin:$PATH
tree > "$scratch/before"

cat > "$scratch/wanted" << 'END'
bin/turnaudit
bin/turnexplain
bin/turnprep
share/bash-completion/completions/turnaudit
share/bash-completion/completions/turnexplain
share/bash-completion/completions/turnprep
share/doc/turnaudit/CHANGELOG.md
share/doc/turnaudit/LICENSE
share/doc/turnaudit/README.md
share/doc/turnaudit/SHA256SUMS
share/doc/turnaudit/docs/..
share/doc/turnaudit/examples/..
share/doc/turnaudit/tests/plain/..
share/doc/turnaudit/tools/collect.py
share/doc/turnaudit/tools/second_opinion.py
share/fish/vendor_completions.d/turnaudit.fish
share/fish/vendor_completions.d/turnexplain.fish
share/fish/vendor_completions.d/turnprep.fish
share/man/man1/turnaudit.1
share/man/man1/turnexplain.1
share/man/man1/turnprep.1
share/man/man5/turnaudit-certificate.5
share/man/man5/turnaudit-policy.5
share/man/man7/turnaudit-rules.7
share/zsh/site-functions/_turnaudit
share/zsh/site-functions/_turnexplain
share/zsh/site-functions/_turnprep
END

for place in "$scratch/root//usr/local" "$scratch//home folder/.local"; do
    name=${place##*//}
    before=${place%//*}
    if [ "$before" = "$scratch" ]; then
        make -s install PROGRAM="$program" BESIDE="$prepares $explains" PREFIX="$before/$name" > "$scratch/told" 2>&1
    else
        make -s install PROGRAM="$program" BESIDE="$prepares $explains" DESTDIR="$before" PREFIX="/$name" > "$scratch/told" 2>&1
    fi || { cat "$scratch/told"; tell "install in $name" no; continue; }
    files "$before/$name" > "$scratch/files"
    same "install in $name: the files" "$scratch/wanted" "$scratch/files"
    verdict "install in $name" "$before/$name/bin/turnaudit"
    beside "install in $name" "$before/$name/bin"
    documents "install in $name" "$before/$name/share/doc/turnaudit"
    ok=no
    if (cd "$before/$name" && sha256sum --quiet --check share/doc/turnaudit/SHA256SUMS); then ok=yes; fi
    tell "install in $name: the digests" "$ok"
done

# Without a program its completions and its man page aren't installed either.
grep -Ev '^bin/turnprep$|/_?turnprep(\.fish|\.1)?$' "$scratch/wanted" > "$scratch/wanted_of_two"
grep -Ev '^bin/turnexplain$|/_?turnexplain(\.fish|\.1)?$' "$scratch/wanted_of_two" > "$scratch/wanted_alone"
for name in of_two alone; do
    if [ $name = of_two ]; then others=$explains; else others=; fi
    make -s install PROGRAM="$program" BESIDE="$others" PREFIX="$scratch/$name" > "$scratch/told" 2>&1 || cat "$scratch/told"
    files "$scratch/$name" > "$scratch/files"
    same "install $name: the files" "$scratch/wanted_$name" "$scratch/files"
done

# A place that has files and empty folders of others is as it was after two installations, the second without turnprep, and a removal.
place=$scratch/shared
mkdir -p "$place/bin" "$place/share/man/man7" "$place/share/doc"
echo other > "$place/bin/other"
find "$place" | LC_ALL=C sort > "$scratch/before_removal"
for others in "$prepares $explains" "$explains"; do
    make -s install PROGRAM="$program" BESIDE="$others" PREFIX="$place" > "$scratch/told" 2>&1 || cat "$scratch/told"
done
make -s uninstall PREFIX="$place" > "$scratch/told" 2>&1 || cat "$scratch/told"
find "$place" | LC_ALL=C sort > "$scratch/after_removal"
same "uninstall: what others have stays" "$scratch/before_removal" "$scratch/after_removal"
fails_with "uninstall: nothing is installed" "nothing is installed: there is no $place/share/doc/turnaudit/SHA256SUMS" make -s uninstall PREFIX="$place"
make -s uninstall PREFIX="$scratch/alone" > "$scratch/told" 2>&1 || cat "$scratch/told"
ok=no
if ! [ -e "$scratch/alone" ]; then ok=yes; else find "$scratch/alone"; fi
tell "uninstall: a folder that the installation made" "$ok"

# A file that was changed stays, and is named.
echo changed >> "$scratch/of_two/bin/turnaudit"
fails_with "uninstall: a changed file is named" "$scratch/of_two/bin/turnaudit stays" make -s uninstall PREFIX="$scratch/of_two"
echo "$scratch/of_two/bin/turnaudit" > "$scratch/stays"
find "$scratch/of_two" -type f > "$scratch/files"
same "uninstall: a changed file stays" "$scratch/stays" "$scratch/files"

# A record that names a file elsewhere is refused, and nothing is removed.
mkdir -p "$scratch/forged/share/doc/turnaudit"
echo kept > "$scratch/kept"
echo "$(sha256sum < "$scratch/kept" | cut -d' ' -f1)  ../kept" > "$scratch/forged/share/doc/turnaudit/SHA256SUMS"
fails_with "uninstall: a file elsewhere" "SHA256SUMS:1: no line of an installation" make -s uninstall PREFIX="$scratch/forged"
ok=no
if [ -e "$scratch/kept" ]; then ok=yes; fi
tell "uninstall: a file elsewhere stays" "$ok"

# What isn't built is named, and nothing is made.
for target in install deb; do
    fails_with "$target: not built" "turnaudit isn't built, there is no $scratch/no/turnaudit: \`make turnaudit\` proves and builds it" \
        make -s $target PROGRAM="$scratch/no/turnaudit" BESIDE= PREFIX="$scratch/no" OUT="$scratch/no"
    fails_with "$target: one beside it isn't built" "turnprep isn't built, there is no $scratch/no/turnprep: \`make turnprep\` proves and builds it" \
        make -s $target PROGRAM="$program" BESIDE="$scratch/no/turnprep" PREFIX="$scratch/no" OUT="$scratch/no"
done
ok=no
if ! [ -e "$scratch/no" ]; then ok=yes; fi
tell "nothing is made of what isn't built" "$ok"

# The help has a line for each target, of at most 80 characters.
make -s help > "$scratch/help"
sed -n 's/^\.PHONY: //p' Makefile | tr ' ' '\n' | grep -v '^help$' > "$scratch/targets"
cut -d' ' -f1 "$scratch/help" | grep -v = | LC_ALL=C sort | same "help: the targets" - "$scratch/targets"
ok=no
if [ -s "$scratch/help" ] && ! grep -q '.\{81\}' "$scratch/help"; then ok=yes; fi
tell "help: lines of at most 80 characters" "$ok"

if command -v dpkg-deb > /dev/null; then
    make -s deb PROGRAM="$program" BESIDE="$prepares $explains" OUT="$scratch/1" > "$scratch/told" 2>&1 || cat "$scratch/told"
    (umask 077 && export TZ=Asia/Tokyo LC_ALL=C.UTF-8 DPKG_DEB_THREADS_MAX=4 &&
        make -s deb PROGRAM="$program" BESIDE="$prepares $explains" OUT="$scratch/2") > "$scratch/told" 2>&1 || cat "$scratch/told"
    package=$(echo "$scratch"/1/turnaudit_*.deb)
    ok=no
    if cmp "$package" "$scratch"/2/turnaudit_*.deb; then ok=yes; fi
    tell "the same package twice" "$ok"
    dpkg-deb -x "$package" "$scratch/unpacked" || failed=$((failed + 1))
    sed 's|\(share/man/.*\)|\1.gz|; s|zsh/site-functions|zsh/vendor-completions|; s|turnaudit/LICENSE|turnaudit/copyright|' "$scratch/wanted" > "$scratch/of_package"
    printf 'share/doc/turnaudit/%s\n' changelog.gz changelog.Debian.gz turnaudit.spdx >> "$scratch/of_package"
    echo share/lintian/overrides/turnaudit >> "$scratch/of_package"
    LC_ALL=C sort -o "$scratch/of_package" "$scratch/of_package"
    files "$scratch/unpacked/usr" > "$scratch/files"
    same "the package: the files" "$scratch/of_package" "$scratch/files"
    verdict "the package" "$scratch/unpacked/usr/bin/turnaudit"
    beside "the package" "$scratch/unpacked/usr/bin"
    documents "the package" "$scratch/unpacked/usr/share/doc/turnaudit"
    ok=no
    if python3 tests/package_lists.py "$scratch/unpacked/usr" "$program" > "$scratch/told" 2>&1; then ok=yes; else cat "$scratch/told"; fi
    tell "the package: its lists" "$ok"
    (cd "$scratch/unpacked/usr" && find . -type f | LC_ALL=C sort) > "$scratch/before_removal"
    for target in install uninstall; do
        fails_with "$target over a package" "SHA256SUMS is of a Debian package" make -s $target PROGRAM="$program" PREFIX="$scratch/unpacked/usr"
    done
    (cd "$scratch/unpacked/usr" && sha256sum --quiet --check share/doc/turnaudit/SHA256SUMS && find . -type f | LC_ALL=C sort) > "$scratch/after_removal"
    same "the package stays" "$scratch/before_removal" "$scratch/after_removal"
    objcopy -O binary --only-section=.text "$program" "$scratch/code"
    objcopy -O binary --only-section=.text "$scratch/unpacked/usr/bin/turnaudit" "$scratch/packed_code"
    ok=no
    if [ -s "$scratch/code" ] && cmp "$scratch/code" "$scratch/packed_code"; then ok=yes; fi
    tell "the package: the program's code" "$ok"
    zcat "$scratch/unpacked/usr/share/man/man1/turnaudit.1.gz" > "$scratch/page"
    same "the package: a man page" "$scratch/root/usr/local/share/man/man1/turnaudit.1" "$scratch/page"
    ok=no
    if dpkg-deb -f "$package" Depends | grep -q '^libc6 (>= 2\.[0-9]*)'; then ok=yes; fi
    tell "the package: what it depends on" "$ok"
    ok=no
    if [ "$("$program" --version | cut -d, -f1)" = "turnaudit $(dpkg-deb -f "$package" Version | cut -d- -f1)" ]; then ok=yes; fi
    tell "the package: the release" "$ok"
    if command -v lintian > /dev/null; then
        ok=no
        if lintian --allow-root --fail-on error,warning "$package" > "$scratch/told" 2>&1; then ok=yes; else cat "$scratch/told"; fi
        tell "lintian" "$ok"
    else
        echo "install: no lintian, not tried"
    fi
else
    echo "install: no dpkg-deb, no package tried"
fi

tree > "$scratch/after"
same "the repository's folder" "$scratch/before" "$scratch/after"
ok=no
if ! [ -e "$scratch/proved" ]; then ok=yes; fi
tell "nothing is proved" "$ok"
echo "install: $passed passed, $failed failed"
[ "$failed" = 0 ]
