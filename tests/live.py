#!/usr/bin/env python3
"""`live` over captures that are whole, that grow while it reads them, and that are cut.

    python3 tests/live.py PROGRAM

What each capture in examples/ is answered stands in its folder, and is what `audit` says; of those that aren't shown to conform the rule is compared. A growing file is written
by this process while the program reads it, and the program waits five seconds without a byte before it takes the file to have ended. Through pipes the
program reads in each turn just what this process writes then. Where dumpcap is installed and may capture, it writes one of the captures.
"""

import array
import fcntl
import os
import pathlib
import random
import re
import shutil
import signal
import socket
import subprocess
import sys
import tempfile
import termios
import threading
import time

TOP = pathlib.Path(__file__).resolve().parent.parent
BINDING = TOP / "crates/turnaudit/data/binding.pcapng"
POLICY = TOP / "crates/turnaudit/data/policy"
CONFORMING = (0, "turnaudit-report 1\nconforming 2 datagrams 1 lanes\n", "")
TORN = (2, "", "turnaudit: refused C1 in capture 0\n")
UNREAD = (4, "", "turnaudit: read failed\n")
PATIENT = ["--idle", "50"]


def without_moment(text):
    return re.sub(r" moment .*", "", text)


def as_far_as_rule(answer):
    """Of a capture that isn't shown to conform the status and the rule: `audit` tries again where it finds no order, and may name a later datagram."""
    status, out, err = answer
    return (status, "\n".join(out.splitlines()[:3]), err) if status == 1 else answer


class Tries:
    def __init__(self, program):
        self.program = program
        self.passed = 0
        self.failed = 0
        self.lock = threading.Lock()

    def start(self, words, command="live"):
        return subprocess.Popen([self.program, command, *map(str, words)], stdout=subprocess.PIPE, stderr=subprocess.PIPE, text=True)

    def tell(self, name, wanted, given):
        """That what is given is what is wanted."""
        with self.lock:
            if wanted == given:
                self.passed += 1
            else:
                self.failed += 1
                print(f"failed: {name}: wanted {wanted}, given {given}")

    def end(self, name, run, wanted, alike=lambda answer: answer):
        """That the run ends with this status, report and line, or alike."""
        try:
            out, err = run.communicate(timeout=120)
        except subprocess.TimeoutExpired:
            run.kill()
            out, err = run.communicate()
        self.tell(name, alike(wanted), alike((run.returncode, without_moment(out), err)))

    def ask(self, name, words, wanted, alike=lambda answer: answer):
        self.end(name, self.start(words), wanted, alike)


def captures_in(folder):
    return sorted(folder.glob("*.pcapng"))


def answer_in(folder):
    """The status, and what goes to standard output and to standard error."""
    status = int((folder / "status").read_text())
    expected = without_moment((folder / "expected").read_text())
    return (status, "", expected) if status == 2 else (status, expected, "")


def words_in(folder):
    return ["--policy", folder / "policy", "--creds", folder / "creds"]


def write_in_pieces(path, content, size, rest):
    """Appends the content in pieces, with a rest between two."""
    with open(path, "ab", buffering=0) as file:
        for at in range(0, len(content), size):
            file.write(content[at : at + size])
            time.sleep(rest)


def grow(tries, name, words, captures, size, rest, wanted):
    """The captures are there and empty when the program starts, and are written side by side."""
    with tempfile.TemporaryDirectory() as scratch:
        copies = [pathlib.Path(scratch) / capture.name for capture in captures]
        for copy in copies:
            copy.touch()
        run = tries.start([*words, *PATIENT, *copies])
        writers = [
            threading.Thread(target=write_in_pieces, args=(copy, capture.read_bytes(), size, rest))
            for copy, capture in zip(copies, captures)
        ]
        for writer in writers:
            writer.start()
        for writer in writers:
            writer.join()
        tries.end(name, run, wanted, as_far_as_rule)


def try_examples(tries):
    growing = []
    for folder in sorted((TOP / "examples").iterdir()):
        if not (folder / "policy").is_file():
            continue
        captures, wanted, words = captures_in(folder), answer_in(folder), words_in(folder)
        tries.end(f"{folder.name} by audit", tries.start([*words, *captures], "audit"), wanted)
        tries.ask(f"{folder.name} whole", [*words, *captures], wanted, as_far_as_rule)
        most = max(capture.stat().st_size for capture in captures)
        arguments = (tries, f"{folder.name} in pieces", words, captures, max(most // 20, 1), 0.02, wanted)
        growing.append(threading.Thread(target=grow, args=arguments))
    for size, rest in [(1, 0.002), (7, 0.01), (4096, 0.01)]:
        arguments = (tries, f"binding in pieces of {size}", ["--policy", POLICY], [BINDING], size, rest, CONFORMING)
        growing.append(threading.Thread(target=grow, args=arguments))
    for thread in growing:
        thread.start()
    for thread in growing:
        thread.join()


def is_read(pipe):
    """Whether all that was written to a pipe was read."""
    left = array.array("i", [0])
    fcntl.ioctl(pipe, termios.FIONREAD, left)
    return left[0] == 0


def feed_pipes(run, pipes, contents, draw):
    """Writes of each capture what is drawn for a turn, and waits until it is read, as long as the program runs."""
    left = dict(zip(pipes, contents))
    while left:
        for pipe, content in list(left.items()):
            count = draw()
            os.write(pipe, content[:count])
            left[pipe] = content[count:]
        while not all(is_read(pipe) for pipe in left):
            if run.poll() is not None:
                break
            time.sleep(0)
        for pipe in [pipe for pipe, content in left.items() if not content or run.poll() is not None]:
            os.close(pipe)
            del left[pipe]


def try_pipes(tries, scratch):
    """What each turn reads is chosen: so many bytes, or some number drawn for each of them."""
    examples = [(folder.name, words_in(folder), captures_in(folder), answer_in(folder)) for folder in sorted((TOP / "examples").iterdir()) if (folder / "policy").is_file()]
    examples.append(("binding", ["--policy", POLICY], [BINDING], CONFORMING))
    for name, words, captures, wanted in examples:
        contents = [capture.read_bytes() for capture in captures]
        if not all(contents):
            continue
        pieces = {f"{size} a turn": lambda size=size: size for size in [1, 7, 4096]}
        for seed in [1, 2]:
            numbers = random.Random(f"{name} {seed}")
            pieces[f"cut by seed {seed}"] = lambda numbers=numbers: int(10 ** numbers.uniform(0, 4.5))
        for way, draw in pieces.items():
            with tempfile.TemporaryDirectory(dir=scratch) as folder:
                names = [pathlib.Path(folder) / str(number) for number in range(len(captures))]
                for path in names:
                    os.mkfifo(path)
                pipes = [os.open(path, os.O_RDWR) for path in names]
                run = tries.start([*words, *names])
                feed_pipes(run, pipes, contents, draw)
                tries.end(f"{name}, {way}", run, wanted, as_far_as_rule)


def answer_bindings(server):
    """Tells each client its address (RFC 8489, section 14.2), until the socket is closed."""
    while True:
        try:
            request, (host, port) = server.recvfrom(2048)
        except OSError:
            return
        cookie = request[4:8]
        mapped = bytes([0, 1]) + (port ^ int.from_bytes(cookie[:2], "big")).to_bytes(2, "big")
        mapped += bytes(one ^ other for one, other in zip(socket.inet_aton(host), cookie))
        server.sendto(bytes.fromhex("0101000c") + request[4:20] + bytes.fromhex("00200008") + mapped, (host, port))


def try_dumpcap(tries, scratch):
    """A capture that dumpcap writes on the loopback interface."""
    if not shutil.which("dumpcap"):
        return
    server = socket.socket(socket.AF_INET, socket.SOCK_DGRAM)
    server.bind(("127.0.0.1", 0))
    port = server.getsockname()[1]
    path, policy = scratch / "dumpcap.pcapng", scratch / "dumpcap-policy"
    policy.write_text(f"turnaudit-policy 1\nlisten 127.0.0.1:{port}\nrelay 127.0.0.1:1-2\n")
    words = ["dumpcap", "-q", "-i", "lo", "-f", f"udp port {port}", "-w", str(path)]
    dumpcap = subprocess.Popen(words, stdout=subprocess.DEVNULL, stderr=subprocess.DEVNULL)
    time.sleep(2)
    if dumpcap.poll() is not None or not path.exists():
        print("live: dumpcap may not capture here")
        server.close()
        return
    threading.Thread(target=answer_bindings, args=(server,), daemon=True).start()
    run = tries.start(["--policy", policy, "--idle", "60", path])
    client = socket.socket(socket.AF_INET, socket.SOCK_DGRAM)
    client.bind(("127.0.0.1", 0))
    for number in range(8):
        client.sendto(bytes.fromhex("000100002112a442") + number.to_bytes(12, "big"), ("127.0.0.1", port))
        client.recv(2048)
        time.sleep(0.2)
    time.sleep(2)
    dumpcap.send_signal(signal.SIGINT)
    dumpcap.wait(timeout=30)
    tries.end("what dumpcap writes", run, (0, "turnaudit-report 1\nconforming 16 datagrams 1 lanes\n", ""))
    client.close()
    server.close()


def try_cuts(tries, scratch):
    words = ["--policy", POLICY]
    content = BINDING.read_bytes()
    cut = scratch / "cut.pcapng"
    for length, wanted in [(0, (2, "", "turnaudit: refused C5 in capture 0\n")), (100, TORN), (251, TORN), (252, CONFORMING)]:
        cut.write_bytes(content[:length])
        tries.ask(f"the first {length} bytes", [*words, cut], wanted)
    cut.write_bytes(content[:200])
    tries.ask("a second capture cut", [*words, BINDING, cut], (2, "", "turnaudit: refused C1 in capture 1\n"))
    tries.ask("a capture that is not there", [*words, scratch / "nowhere"], UNREAD)
    tries.ask("a second one that is not there", [*words, BINDING, scratch / "nowhere"], UNREAD)
    tries.ask("a policy that is not there", ["--policy", scratch / "nowhere", BINDING], UNREAD)
    too_many = [BINDING] * 16 + [scratch / "nowhere"]
    tries.ask("a seventeenth capture", [*words, *too_many], (2, "", "turnaudit: refused V4 in capture 16\n"))


def try_truncated(tries, scratch):
    """What was read counts, and a file that is shorter than that gives no more."""
    words = ["--policy", POLICY, *PATIENT]
    content = BINDING.read_bytes()
    for length, wanted in [(252, CONFORMING), (200, TORN)]:
        path = scratch / f"truncated{length}.pcapng"
        path.write_bytes(content[:length])
        run = tries.start([*words, path])
        time.sleep(2)
        with open(path, "r+b") as file:
            file.truncate(60)
        tries.end(f"truncated behind {length} bytes", run, wanted)


def try_turns(tries, scratch):
    words = ["--policy", POLICY]
    tries.ask("one turn", [*words, "--turns", "1", BINDING], CONFORMING)
    # Two turns of 65,536 bytes, and a rest: comment blocks that are passed over.
    comment = (0x0BAD).to_bytes(4, "little") + (1024).to_bytes(4, "little") + bytes(1012) + (1024).to_bytes(4, "little")
    content = BINDING.read_bytes()
    long = scratch / "long.pcapng"
    long.write_bytes(content + comment * 129)
    tries.ask("a long capture", [*words, long], CONFORMING)
    tries.ask("a long capture, two turns", [*words, "--turns", "2", long], TORN)
    tries.ask("a long capture, three turns", [*words, "--turns", "3", long], CONFORMING)
    for option in ["--idle", "--turns"]:
        for number in ["0", "1000001", "x", ""]:
            run = tries.start([*words, option, number, BINDING])
            run.communicate(timeout=60)
            tries.tell(f"{option} {number}", 5, run.returncode)
    run = tries.start(["--idle", "1", BINDING])
    run.communicate(timeout=60)
    tries.tell("no policy", 5, run.returncode)


def try_first_breach(tries, scratch):
    """A breach ends the audit in its turn, although it would wait ten minutes for more."""
    path = scratch / "breach.pcapng"
    content = bytearray(BINDING.read_bytes())
    at = content.index(bytes.fromhex("bd52"))
    content[at : at + 2] = bytes.fromhex("bd53")
    # The request comes again a minute later.
    again = bytearray(content[48:144])
    again[16:20] = (int.from_bytes(again[16:20], "little") + 60_000_000).to_bytes(4, "little")
    report = "turnaudit-report 1\nnot shown\nrule R17 mapped address\nphase 2 lane 0 event 1\ndatagram 0.0 198.51.100.7:40000 to 192.0.2.1:3478 20 bytes\n"
    path.write_bytes(content)
    tries.ask("the breach of a whole capture", ["--policy", POLICY, path], (1, report, ""))
    path.write_bytes(content + again)
    tries.ask("a breach before the end", ["--policy", POLICY, "--idle", "6000", path], (1, report, ""))


def main():
    tries = Tries(str(pathlib.Path(sys.argv[1]).resolve()))
    scratch = pathlib.Path(tempfile.mkdtemp())
    try:
        try_examples(tries)
        try_cuts(tries, scratch)
        try_truncated(tries, scratch)
        try_turns(tries, scratch)
        try_first_breach(tries, scratch)
        try_pipes(tries, scratch)
        try_dumpcap(tries, scratch)
    finally:
        shutil.rmtree(scratch)
    print(f"live: {tries.passed} passed, {tries.failed} failed")
    return 1 if tries.failed else 0


if __name__ == "__main__":
    sys.exit(main())
