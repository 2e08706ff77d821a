#!/usr/bin/env python3
"""explain.py PROGRAM [--write]: what turnexplain tells of the stored captures, of captures that are built for a rule each, and of refusals.

Each answer is compared with its golden file in tests/explain, and all but `faults` are given once more as JSON, which docs/turnexplain.schema.json has to allow
and which has to tell the same. Each frame that it tells is looked up in the capture by a reader of its own,
and by tshark where that is installed: the number, the ends and the time have to be those. No answer may have a byte that a terminal acts on.
With --write the golden files are written anew.
"""

import re
import shutil
import struct
import subprocess
import sys
import tempfile
from pathlib import Path

import explain_captures
import explain_json

TOP = Path(__file__).resolve().parent.parent
GOLDEN = TOP / "tests" / "explain"
EXAMPLES = TOP / "examples"
LINE = re.compile(r"^  (\S+) frame (\d+)  \+(\d+)\.(\d{6})  (\S+) > (\S+) .*\[\d+\.\d+\]$", re.M)
SECONDS = 60


def example(name, *captures):
    folder = EXAMPLES / name
    return folder, ["--policy", "policy", "--creds", "creds", *(captures or ("cap.pcapng",))]


def stored():
    """Words on captures of the repository, by the names of their golden files."""
    outlived, words = example("coturn-permission-outlived")
    yield "permission-outlived", outlived, ["verdict", *words]
    yield "permission-outlived-by-certificate", outlived, ["verdict", "--cert", "certificate", *words]
    yield "permission-outlived-lanes", outlived, ["lanes", *words]
    yield "permission-outlived-lanes-broken", outlived, ["lanes", "--broken", *words]
    yield "permission-outlived-client", outlived, ["client", "--lane", "1", "--around", "6", *words]
    other, words = example("processone-other-user")
    for command in ("verdict", "lanes"):
        yield f"other-user-{command}", other, [command, *words]
    yield "other-user-client", other, ["client", "--lane", "2", *words]
    call, words = example("coturn-channels-two-files", "client.pcapng", "peer.pcapng")
    for command in ("verdict", "lanes"):
        yield f"conforming-{command}", call, [command, *words]
    yield "conforming-client", call, ["client", "--lane", "0", *words]
    yield "no-such-lane", call, ["client", "--lane", "9", *words]
    yield "peers-alone", call, ["verdict", *example("coturn-channels-two-files", "peer.pcapng")[1]]
    yield "one-file-twice", call, ["verdict", *example("coturn-channels-two-files", "client.pcapng", "client.pcapng", "peer.pcapng")[1]]
    yield "no-users", call, ["verdict", "--policy", "policy", "client.pcapng", "peer.pcapng"]
    yield "no-users-faults", call, ["faults", "--policy", "policy", "client.pcapng", "peer.pcapng"]
    yield "conforming-faults", call, ["faults", *words]
    yield "exchanged-captures", call, ["verdict", "--cert", "certificate", *example("coturn-channels-two-files", "peer.pcapng", "client.pcapng")[1]]
    inputs = TOP / "tests" / "prepare" / "inputs"
    yield "midcall-too-late", inputs, ["verdict", "--policy", "policy", "--creds", "creds", "midcall-late.pcapng"]
    two = TOP / "tests" / "two-lanes-broken"
    for command in ("verdict", "lanes"):
        yield f"two-lanes-broken-{command}", two, [command, "--policy", "policy", "--cert", "certificate", "cap.pcapng"]
    for name in ("any-device", "cut-packets", "dropped-packets", "fragments"):
        folder, words = example(f"refused-{name}")
        yield f"refused-{name}", folder, ["verdict", *words]


def refusals(room):
    """Words on inputs with a likely mistake each."""
    call = (EXAMPLES / "coturn-binding" / "cap.pcapng").read_bytes()
    files = {
        "call.pcapng": call,
        "policy": explain_captures.POLICY.encode(),
        "users": explain_captures.USERS.encode(),
        "crlf": explain_captures.POLICY.replace("\n", "\r\n").encode(),
        "mark": b"\xef\xbb\xbf" + explain_captures.POLICY.encode(),
        "comment": b"turnaudit-policy 1\n# the server\n",
        "spaces": b"user\trealm\tpass\nalice realm hidden\n",
        "no-lf": b"user\trealm\thidden",
        "keys": b"user=0x8493fbc53ba582fb4c044c456bdc40eb\n",
        "wrong-policy": explain_captures.POLICY.replace("192.0.2.1", "192.0.2.77").encode(),
        "call.pcapng.gz": b"\x1f\x8b" + call,
        "classic.pcap": bytes.fromhex("d4c3b2a1020004000000000000000000ffff000001000000"),
        "torn.pcapng": call[:-4],
        "nasty": b"turnaudit-policy 1\nlisten " + explain_captures.NASTY + b"\n",
    }
    for name, data in files.items():
        (room / name).write_bytes(data)
    usual = ["--policy", "policy", "--creds", "users"]
    yield "crlf", ["verdict", "--policy", "crlf", "call.pcapng"]
    yield "byte-order-mark", ["verdict", "--policy", "mark", "call.pcapng"]
    yield "comment", ["verdict", "--policy", "comment", "call.pcapng"]
    yield "nasty-policy", ["verdict", "--policy", "nasty", "call.pcapng"]
    yield "capture-as-policy", ["verdict", "--policy", "call.pcapng", "call.pcapng"]
    yield "endless-policy", ["verdict", "--policy", "/dev/zero", "call.pcapng"]
    yield "policy-as-capture", ["verdict", *usual, "policy"]
    yield "policy-as-users", ["verdict", "--policy", "policy", "--creds", "policy", "call.pcapng"]
    yield "policy-as-certificate", ["verdict", *usual, "--cert", "policy", "call.pcapng"]
    yield "spaces", ["verdict", "--policy", "policy", "--creds", "spaces", "call.pcapng"]
    yield "no-lf", ["verdict", "--policy", "policy", "--creds", "no-lf", "call.pcapng"]
    yield "keys", ["verdict", "--policy", "policy", "--creds", "keys", "call.pcapng"]
    yield "gzip", ["verdict", *usual, "call.pcapng.gz"]
    yield "classic", ["verdict", *usual, "classic.pcap"]
    yield "torn", ["verdict", *usual, "torn.pcapng"]
    yield "missing", ["verdict", *usual, "no-such.pcapng"]
    yield "faults-missing", ["faults", *usual, "no-such.pcapng"]
    yield "faults-capture-as-policy", ["faults", "--policy", "call.pcapng", "call.pcapng"]
    yield "nothing-judged", ["verdict", "--policy", "wrong-policy", "call.pcapng"]
    yield "no-words", []
    yield "help", ["verdict", "--help"]


def elsewhere(room):
    """Words by which a certificate without its first act is judged: the departure of that act breaks a rule and shows no fault, and 40 others do."""
    folder = room / "outlived"
    shutil.copytree(EXAMPLES / "coturn-permission-outlived", folder)
    lines = (folder / "certificate").read_text().splitlines(keepends=True)
    lines.remove(next(line for line in lines if line.startswith("act ")))
    (folder / "certificate").write_text("".join(lines))
    return folder, ["verdict", "--policy", "policy", "--creds", "creds", "--cert", "certificate", "cap.pcapng"]


def frames_of(data):
    """The interface, the stamp in microseconds and the ends of each frame of a capture of this machine's byte order, Ethernet without tags."""
    at, found, units = 0, [], []
    while at < len(data):
        kind, length = struct.unpack_from("<II", data, at)
        if kind == 1:
            options, unit = data[at + 16:at + length - 4], 1_000_000
            while len(options) >= 4:
                code, size = struct.unpack_from("<HH", options)
                if code == 9:
                    unit = 10 ** options[4]
                options = options[4 + (size + 3) // 4 * 4:] if code else b""
            units.append(unit)
        if kind == 6:
            iface, high, low, size = struct.unpack_from("<IIII", data, at + 8)
            frame = data[at + 28:at + 28 + size]
            ends = None
            if frame[12:14] == b"\x08\0" and frame[23] == 17:
                ports = struct.unpack_from(">HH", frame, 14 + frame[14] % 16 * 4)
                ends = [f"{'.'.join(map(str, host))}:{port}" for host, port in zip((frame[26:30], frame[30:34]), ports)]
            found.append((iface, ((high << 32) | low) * 1_000_000_000 // units[iface], ends))
        at += length
    return found


def by_tshark(file, number):
    """The ends of a frame by tshark."""
    fields = [word for name in ("ip.src", "udp.srcport", "ip.dst", "udp.dstport", "frame.time_epoch") for word in ("-e", name)]
    run = subprocess.run(["tshark", "-r", file, "-Y", f"frame.number == {number}", "-T", "fields", *fields], capture_output=True, text=True, check=True)
    source, source_port, target, target_port, _ = run.stdout.rstrip("\n").split("\t")
    return [f"{source}:{source_port}", f"{target}:{target_port}"]


def all_frames_of(folder, words):
    """The frames of the captures that words name."""
    return {word: frames_of((folder / word).read_bytes()) for word in words if word.endswith((".pcapng", ".pcap"))}


def check_frames(name, folder, words, answer):
    """Whether each frame that is told has the ends and the time that are told with it."""
    told = LINE.findall(answer)
    if not told:
        return 0
    all_frames = all_frames_of(folder, words)
    first = min(stamp for frames in all_frames.values() for _, stamp, _ in frames)
    for file, number, seconds, rest, source, target in told:
        _, stamp, ends = all_frames[file][int(number) - 1]
        micros = int(seconds) * 1_000_000 + int(rest)
        if ends != [source, target] or micros != (stamp - first + 500) // 1_000:
            sys.exit(f"{name}: frame {number} of {file} has {ends} and {stamp - first}")
        if shutil.which("tshark") and by_tshark(folder / file, number) != [source, target]:
            sys.exit(f"{name}: tshark shows other ends in frame {number} of {file}")
    return len(told)


def run(program, folder, words):
    done = subprocess.run([program, *words], cwd=folder, capture_output=True, timeout=SECONDS, check=False)
    for part in (done.stdout, done.stderr):
        if any(byte < 32 and byte != 10 or byte == 127 for byte in part):
            sys.exit(f"{words}: a control byte in {part!r}")
        if b"hidden" in part:
            sys.exit(f"{words}: a password in {part!r}")
    return done.stdout.decode(), done.stderr.decode(), done.returncode


def check_json(program, name, folder, words, text, status, write):
    """Asks of the same words with --json what explain_json.py asks; a refusal is that of the text."""
    out, err, other = run(program, folder, [words[0], "--json", *words[1:]])
    if other != status or err:
        sys.exit(f"{name}: with --json status {other} and {err!r}")
    explain_json.check(name, text, out, all_frames_of(folder, words), folder, write)


def compare(program, name, folder, words, write):
    """Runs one case, compares, and tells how many frames were checked."""
    out, err, status = run(program, folder, words)
    answer = f"$ turnexplain {' '.join(words)}\nstatus {status}\n{out}" + "".join(f"err: {line}\n" for line in err.splitlines())
    golden = GOLDEN / f"{name}.txt"
    if write:
        golden.write_text(answer, encoding="utf-8")
    elif not golden.is_file() or golden.read_text(encoding="utf-8") != answer:
        print(answer, end="")
        sys.exit(f"{name}: that isn't what {golden} has")
    if status in (0, 1) and words and words[0] != "faults" and "--help" not in words:
        check_json(program, name, folder, words, out, status, write)
    return check_frames(name, folder, words, out)


def main(program, write=False):
    program = str(Path(program).resolve())
    cases, frames = 0, 0
    for name, folder, words in stored():
        frames += compare(program, name, folder, words, write)
        cases += 1
    with tempfile.TemporaryDirectory() as room:
        room = Path(room)
        (room / "policy").write_text(explain_captures.POLICY)
        (room / "users").write_text(explain_captures.USERS)
        for name, data in explain_captures.CASES.items():
            (room / f"{name}.pcapng").write_bytes(data)
            words = ["verdict", "--policy", "policy", "--creds", "users", f"{name}.pcapng"]
            frames += compare(program, name, room, words, write)
            cases += 1
            if name in explain_captures.FAULTS:
                compare(program, f"{name}-faults", room, ["faults", *words[1:]], write)
                cases += 1
        for percent, status in ((0, 0), (1, 6), (100, 6)):
            answered = run(program, room, ["verdict", "--expect-answers", str(percent), "--policy", "policy", "--creds", "users", "nobody-responds.pcapng"])
            if answered[2] != status:
                sys.exit(f"nobody-responds: with {percent} percent status {answered[2]}")
        for name, (data, certificate) in explain_captures.CERTIFIED.items():
            (room / f"{name}.pcapng").write_bytes(data)
            (room / f"{name}.cert").write_text(certificate)
            words = ["verdict", "--policy", "policy", "--creds", "users", "--cert", f"{name}.cert", f"{name}.pcapng"]
            frames += compare(program, name, room, words, write)
            cases += 1
        frames += compare(program, "shown-elsewhere", *elsewhere(room), write)
        cases += 1
        for name, words in refusals(room):
            compare(program, f"told-{name}", room, words, write)
            cases += 1
    beside = "" if shutil.which("tshark") else ", without tshark, which isn't installed: skipped"
    print(f"explain: {cases} answers, {frames} frames looked up{beside}")


if __name__ == "__main__":
    main(sys.argv[1], "--write" in sys.argv)
