#!/usr/bin/env python3
"""Gives turnprep and turnexplain files that aren't what a command needs, and has the system refuse what they write.

    tests/wrong_files.py TURNPREP TURNEXPLAIN

- A capture that is read twice and can't be, as a pipe, is refused by its name, before anything is opened.
- A wrong file as policy or configuration is refused at its first fault: /dev/zero ends, and 300 MB of zeros take little memory.
- What can't be read or written is named, with the system's reason, and no control byte of a name or an argument is printed.
- After a refusal or an error no file is left; an existing file is never replaced; what fsync, link or rename say is reported (gcc).
- A lane that there isn't is a usage error.
"""

import os
import pathlib
import resource
import shutil
import subprocess
import sys
import tempfile
import time

HERE = pathlib.Path(__file__).resolve().parent
INPUTS = HERE / "prepare" / "inputs"
POLICY, CAPTURE, RINGS = INPUTS / "policy", INPUTS / "midcall-early.pcapng", [INPUTS / "ring1.pcapng", INPUTS / "ring2.pcapng"]
OUTER = ["--policy", INPUTS / "policy-outer", "--external-ip", "198.18.0.1/192.0.2.1"]
EXAMPLE = HERE.parent / "examples" / "coturn-channels-two-files"
TWICE = "it has to be a file that can be read twice"
MISSING = "No such file or directory (os error 2)"
EXISTS = "File exists (os error 17)"
FAILED = "Input/output error (os error 5)"
MEMORY = 48 * 2**20
"""So many bytes of addresses a call may use that refuses a wrong file."""

LONGEST = 120
"""Seconds after which a call is taken to wait for ever. A build without proofs is slow."""


class Tries:
    def __init__(self, prepare, explain):
        self.prepare, self.explain = prepare, explain
        self.right = self.wrong = 0

    def tell(self, name, is_right, what=""):
        self.right += is_right
        self.wrong += not is_right
        if not is_right:
            print(f"FAILED {name}: {what}")

    def ends(self, name, words, status, line, files=None, **how):
        """A call ends with this status and this line on standard error, and leaves these names in the folder of `files`."""
        began = time.monotonic()
        try:
            done = subprocess.run([str(word) for word in words], capture_output=True, timeout=LONGEST, check=False, **how)
        except subprocess.TimeoutExpired:
            return self.tell(name, False, f"no end in {LONGEST} seconds")
        told = done.stderr.decode()
        left = [] if files is None else sorted(file.name for file in files[0].iterdir())
        is_right = done.returncode == status and told == line and left == ([] if files is None else sorted(files[1]))
        return self.tell(name, is_right, f"status {done.returncode}, {told!r}, {done.stdout[:80]!r}, {left}, {time.monotonic() - began:.1f} s")


def explained(program, command, *captures, policy=EXAMPLE / "policy", more=()):
    return [program, command, "--policy", policy, "--creds", EXAMPLE / "creds", *more, *captures]


def reads_twice(tries, room):
    """A pipe without a writer, one with a capture in it, and standard input."""
    out, page = room / "out", room / "page"
    out.mkdir()
    pipe = room / "pipe"
    os.mkfifo(pipe)
    commands = {
        "look": lambda name: [tries.prepare, "look", "--policy", POLICY, name],
        "look without a policy": lambda name: [tries.prepare, "look", name],
        "cut": lambda name: [tries.prepare, "cut", "--policy", POLICY, "-o", out, name],
        "cut of two": lambda name: [tries.prepare, "cut", "--policy", POLICY, "-o", out, CAPTURE, name],
        "verdict": lambda name: explained(tries.explain, "verdict", name),
        "lanes": lambda name: explained(tries.explain, "lanes", EXAMPLE / "client.pcapng", name),
        "client": lambda name: explained(tries.explain, "client", name, more=["--lane", "0", "--json"]),
        "faults": lambda name: explained(tries.explain, "faults", EXAMPLE / "client.pcapng", name),
        "evidence": lambda name: explained(tries.explain, "evidence", name, more=["-o", page]),
        "evidence by a policy": lambda name: explained(tries.explain, "evidence", EXAMPLE / "client.pcapng", policy=name, more=["-o", page]),
    }
    for command, words in commands.items():
        refusal = f"turnprep: refused {{}}: {TWICE}\n" if words("x")[0] == tries.prepare else f"turnexplain: {{}}: {TWICE}\n"
        tries.ends(f"{command} of a pipe without a writer", words(pipe), 2, refusal.format(pipe), (out, []))
        with subprocess.Popen(["cat", CAPTURE], stdout=subprocess.PIPE) as cat:
            name = f"/dev/fd/{cat.stdout.fileno()}"
            tries.ends(f"{command} of what a command prints", words(name), 2, refusal.format(name), (out, []), pass_fds=[cat.stdout.fileno()])
            cat.stdout.close()
        with subprocess.Popen(["cat", CAPTURE], stdout=subprocess.PIPE) as cat:
            tries.ends(f"{command} of piped standard input", words("/dev/stdin"), 2, refusal.format("/dev/stdin"), (out, []), stdin=cat.stdout)
            cat.stdout.close()
    tries.tell("no page of a pipe", not page.exists() and not pathlib.Path(f"{page}.part").exists())
    # A file is one, whatever its name.
    with CAPTURE.open("rb") as capture:
        tries.ends("look at standard input that is a file", [tries.prepare, "look", "--policy", POLICY, "/dev/stdin"], 0, "", stdin=capture)


def reads_once(tries, room):
    """What is read once may be a pipe; if it is refused, nothing waits for it again."""
    pipe = room / "texts"
    os.mkfifo(pipe)

    def writing(text, name, words, status, line):
        with tempfile.TemporaryFile() as file:
            file.write(text)
            file.seek(0)
            writer = subprocess.Popen(["sh", "-c", 'cat > "$0"', pipe], stdin=file)
            tries.ends(name, words, status, line)
            # Where the pipe wasn't opened, it would wait for ever.
            writer.kill()
            writer.wait()

    captures = [EXAMPLE / "client.pcapng", EXAMPLE / "peer.pcapng"]
    writing((EXAMPLE / "policy").read_bytes(), "a policy by a pipe", explained(tries.explain, "verdict", *captures, policy=pipe), 0, "")
    writing(b"turnaudit-policy 1\nlisten x\n", "a refused policy by a pipe", explained(tries.explain, "verdict", *captures, policy=pipe), 2,
            f"turnexplain: {pipe} line 2: a line of another form, or a line too few, P1\n")
    writing(RINGS[0].read_bytes(), "join of a pipe", [tries.prepare, "join", "-o", room / "joined", pipe], 0, "")
    tries.tell("what is joined of a pipe", (room / "joined").read_bytes() == RINGS[0].read_bytes())


def wrong_texts(tries, room):
    """Files that are no policy or configuration."""
    out = room / "texts-out"
    out.mkdir()
    zeros = room / "zeros"
    with zeros.open("wb") as file:
        file.truncate(300_000_000)
    limit = {"preexec_fn": lambda: resource.setrlimit(resource.RLIMIT_AS, (MEMORY, MEMORY))}
    if subprocess.run([tries.prepare, "--version"], capture_output=True, check=False, **limit).returncode != 0:
        print("wrong files: a build without proofs needs more memory, so it isn't limited")
        limit = {}
    for name in ("/dev/zero", zeros):
        calls = {
            "look": ([tries.prepare, "look", "--policy", name, CAPTURE], "P1 in policy line 1: a line of another form, or a line too few"),
            "cut": ([tries.prepare, "cut", "--policy", name, "-o", out, CAPTURE], "P1 in policy line 1: a line of another form, or a line too few"),
            "translate": ([tries.prepare, "translate", "--policy", name, "--external-ip", "198.18.0.1/192.0.2.1", "-o", out, CAPTURE], "P1 in policy line 1: a line of another form, or a line too few"),
            "policy": ([tries.prepare, "policy", "--turnserver-conf", name], "turnserver-conf line 1 has a byte that is zero: this is no configuration"),
            "users": ([tries.prepare, "users", "--turnserver-conf", name], "turnserver-conf line 1 has a byte that is zero: this is no configuration"),
            "users of a secret": ([tries.prepare, "users", "--secret-file", name, CAPTURE], "secret-file line 1 has more than a secret: that is one line of up to 4096 bytes"),
        }
        for command, (words, refusal) in calls.items():
            tries.ends(f"{command} with {name}", words, 2, f"turnprep: refused {refusal}\n", (out, []), **limit)
    plain = (INPUTS / "plain.conf").read_bytes()
    lines = plain.count(b"\n")
    edges = {
        "a zero in line 2": (b"#\n#\0\n" + plain, f"line 2 has a byte that is zero: this is no configuration"),
        "a line of 65,537 bytes": (plain + b"#" + bytes([65]) * 65_536 + b"\n", f"line {lines + 1} has over 65536 bytes: this is no configuration"),
        "a line of 65,536 bytes": (plain + b"#" + bytes([65]) * 65_535 + b"\n", None),
        "16,777,217 bytes": (plain + (b"#" + bytes([65]) * 62 + b"\n") * 2**18, "line {} has byte 16777217 of the file, and no more are read"),
        "16,777,216 bytes": ((plain + (b"#" + bytes([65]) * 62 + b"\n") * 2**18)[: 2**24 - 1] + b"\n", None),
    }
    for name, (text, refusal) in edges.items():
        conf = room / "conf"
        conf.write_bytes(text)
        # The byte after the last that is read is in the line after as many LFs as come before it.
        refusal = refusal and refusal.format(text[: 2**24].count(b"\n") + 1)
        done = subprocess.run([tries.prepare, "policy", "--turnserver-conf", conf], capture_output=True, text=True, check=False)
        expected = (0, "") if refusal is None else (2, f"turnprep: refused turnserver-conf {refusal}\n")
        told = "" if refusal is None and done.returncode == 0 else done.stderr
        tries.tell(f"a configuration with {name}", (done.returncode, told) == expected, f"status {done.returncode}, {done.stderr[:200]!r}")
    long = "has more than a secret: that is one line of up to 4096 bytes"
    for name, text, refusal in [
        ("no byte", b"", "line 1 has no secret"),
        ("an empty line", b"\n", "line 1 has no secret"),
        ("two lines", b"north\nsouth\n", f"line 2 {long}"),
        ("4,097 bytes", b"n" * 4_097, f"line 1 {long}"),
    ]:
        secret = room / "secret"
        secret.write_bytes(text)
        tries.ends(f"a secret of {name}", [tries.prepare, "users", "--secret-file", secret, CAPTURE], 2, f"turnprep: refused secret-file {refusal}\n")
    (room / "secret").write_bytes(b"n" * 4_095 + b"\n")
    done = subprocess.run([tries.prepare, "users", "--secret-file", room / "secret", CAPTURE], capture_output=True, check=False)
    tries.tell("a secret of 4,095 bytes", done.returncode == 0, f"status {done.returncode}, {done.stderr[:200]!r}")


def named(tries, room):
    """What can't be read or written, by name and reason, and arguments that are wrong."""
    out = room / "named"
    out.mkdir()
    absent, folder = room / "absent", room / "no-folder"
    (out / "there").write_text("kept")
    (out / "half.part").write_text("kept")
    has = ["half.part", "there"]
    prepare, explain = tries.prepare, tries.explain
    captures = [EXAMPLE / "client.pcapng", EXAMPLE / "peer.pcapng"]
    for name, words, line in [
        ("join of a missing file", [prepare, "join", "-o", out / "new", absent], f"can't read {absent}: {MISSING}"),
        ("cut of a missing file", [prepare, "cut", "--policy", POLICY, "-o", out, absent], f"can't read {absent}: {MISSING}"),
        ("a missing policy", [prepare, "look", "--policy", absent, CAPTURE], f"can't read {absent}: {MISSING}"),
        ("a missing configuration", [prepare, "policy", "--turnserver-conf", absent], f"can't read {absent}: {MISSING}"),
        ("a folder as a capture", [prepare, "look", room], f"can't read {room}: Is a directory (os error 21)"),
        ("join to a missing folder", [prepare, "join", "-o", folder / "x", *RINGS], f"can't write {folder}/x: {MISSING}"),
        ("cut to a missing folder", [prepare, "cut", "--policy", POLICY, "-o", folder, CAPTURE], f"can't write {folder}/{CAPTURE.name}: {MISSING}"),
        ("reassemble to a missing folder", [prepare, "reassemble", "-o", folder, CAPTURE], f"can't write {folder}/{CAPTURE.name}: {MISSING}"),
        ("join to an existing file", [prepare, "join", "-o", out / "there", *RINGS], f"can't write {out}/there: {EXISTS}"),
        ("join beside a file of its own", [prepare, "join", "-o", out / "half", *RINGS], f"can't write {out}/half.part: {EXISTS}"),
        ("control bytes in a name", [prepare, "look", room / "a\x1b[31mb"], f"can't read {room}/a\\x1B[31mb: {MISSING}"),
        ("evidence to a missing folder", explained(explain, "evidence", *captures, more=["-o", folder / "x"]), f"can't write {folder}/x: {MISSING}"),
        ("evidence to an existing file", explained(explain, "evidence", *captures, more=["-o", out / "there"]), f"can't write {out}/there: {EXISTS}"),
        ("a missing list", explained(explain, "evidence", *captures, more=["-o", out / "new", "--excluded", absent]), f"can't read {absent}: no such file"),
    ]:
        tries.ends(name, words, 4, f"{pathlib.Path(words[0]).name.partition('-')[0]}: {line}\n", (out, has))
    tries.tell("existing files are kept", [(out / name).read_text() for name in has] == ["kept"] * 2)
    for number, more in enumerate(([], ["--json"])):
        tries.ends(f"a lane that there isn't, {number}", explained(explain, "client", *captures, more=["--lane", "9", *more]), 5,
                   "turnexplain: there is no lane 9: there are 1, from 0 (turnexplain lanes)\n")
    tries.ends("no source of users", [prepare, "users"], 5, "turnprep: users takes --turnserver-conf or --secret-file\n")
    tries.ends("two sources of users", [prepare, "users", "--turnserver-conf", "x", "--secret-file", "y"], 5, "turnprep: users takes --turnserver-conf or --secret-file, and not both\n")
    for program in (prepare, explain):
        for words in (["a\x1b[31mb"], ["look", "--a\x1b[31mb"], ["verdict", "--a\x1b[31mb"], ["help", "a\x1b[31mb\u202e"]):
            done = subprocess.run([program, *words], capture_output=True, check=False)
            is_plain = b"\x1b" not in done.stderr and "\u202e".encode() not in done.stderr
            tries.tell(f"{program} {words!r}", done.returncode == 5 and is_plain and not done.stdout, f"status {done.returncode}, {done.stderr!r}")


def leaves_nothing(tries, room):
    """Refused after a part was written: no file is left, of earlier captures neither."""
    torn = room / "torn.pcapng"
    torn.write_bytes((INPUTS / "external-ip.pcapng").read_bytes()[:-3])
    whole = INPUTS / "external-ip.pcapng"
    calls = {
        "join": lambda out: ["join", "-o", out / "new", torn],
        "reassemble": lambda out: ["reassemble", "-o", out, whole, torn],
        "translate": lambda out: ["translate", *OUTER, "-o", out, whole, torn],
        "cut": lambda out: ["cut", "--policy", POLICY, "-o", out, whole, torn],
    }
    for name, words in calls.items():
        out = room / f"nothing-{name}"
        out.mkdir()
        number = 0 if name == "join" else 1
        tries.ends(f"{name} of a torn capture", [tries.prepare, *words(out)], 2, f"turnprep: refused C1 in capture {number}: the capture ends inside a block\n", (out, []))


def failing_system(tries, room):
    """What is written isn't on the disk, or gets no name."""
    if shutil.which("gcc") is None:
        print("wrong files: no gcc, so no call of the system fails")
        return
    library = room / "failing_io.so"
    subprocess.run(["gcc", "-shared", "-fPIC", "-O1", "-o", library, HERE / "failing_io.c", "-ldl"], check=True)
    whole = INPUTS / "external-ip.pcapng"
    captures = [EXAMPLE / "client.pcapng", EXAMPLE / "peer.pcapng"]
    calls = {
        "join": (lambda out: [tries.prepare, "join", "-o", out / "new", *RINGS], ["new"]),
        "reassemble": (lambda out: [tries.prepare, "reassemble", "-o", out, whole, CAPTURE], [whole.name, CAPTURE.name]),
        "translate": (lambda out: [tries.prepare, "translate", *OUTER, "-o", out, whole], [whole.name, "translated"]),
        "cut": (lambda out: [tries.prepare, "cut", "--policy", POLICY, "-o", out, CAPTURE], [CAPTURE.name, "set-aside"]),
        "evidence": (lambda out: explained(tries.explain, "evidence", *captures, more=["-o", out / "new"]), ["new"]),
    }
    for name, (words, makes) in calls.items():
        first = makes[0]
        plain = room / f"plain-{name}"
        plain.mkdir()
        tries.ends(f"{name}", words(plain), 0, "", (plain, makes))
        for variables, is_made in ({"NO_SYNC"}, False), ({"NO_LINK"}, True), ({"NO_LINK", "NO_RENAME"}, False):
            out = room / f"{name}-{'-'.join(sorted(variables))}"
            out.mkdir()
            environment = {**os.environ, "LD_PRELOAD": str(library), **dict.fromkeys(variables, "1")}
            program = "turnexplain" if name == "evidence" else "turnprep"
            expected = (0, "", makes) if is_made else (4, f"{program}: can't write {out}/{first}: {FAILED}\n", [])
            tries.ends(f"{name}, {sorted(variables)}", words(out), expected[0], expected[1], (out, expected[2]), env=environment)
            if is_made:
                same = all((out / made).read_bytes() == (plain / made).read_bytes() for made in makes if name != "evidence")
                tries.tell(f"{name} without links writes the same", same)


def main(words):
    if len(words) != 2:
        sys.exit(__doc__.strip())
    tries = Tries(*(str(pathlib.Path(word).resolve()) for word in words))
    for part in (reads_twice, reads_once, wrong_texts, named, leaves_nothing, failing_system):
        with tempfile.TemporaryDirectory() as room:
            part(tries, pathlib.Path(room).resolve())
    print(f"wrong files: {tries.right} passed, {tries.wrong} failed")
    return 1 if tries.wrong else 0


if __name__ == "__main__":
    sys.exit(main(sys.argv[1:]))
