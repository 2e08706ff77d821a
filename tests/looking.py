#!/usr/bin/env python3
"""Asks `turnprep look` for pages of captures that strangers made.

    tests/looking.py PROGRAM [CLIENTS]

Text of a capture never comes into a page. What is refused is told as elsewhere. Clients, told addresses, transaction ids and data
that collide take little time: of 20,000 clients, or as many as are said, 300 at least.
"""

import pathlib
import struct
import subprocess
import sys
import tempfile

import hang_ups
from fragments import ETHERNET, LITTLE, SECOND, START, cut, datagram, ip_frame
from hang_ups import make_capture

HERE = pathlib.Path(__file__).resolve().parent / "prepare" / "inputs"
POLICY = HERE / "policy"
ANY_DEVICE = HERE.parents[2] / "examples" / "refused-any-device" / "cap.pcapng"
COOKIE = 0x2112A442
SERVER = (0xC0000201, 3478)
# What a real capture has of texts, and what a terminal would obey in their places.
TEXTS = {b"dumpcap": b"\x1b]0;x\x07\x9b", b"Linux": b"\x1b[2J\x7f", b"pion": b"\x1b[8m", b"realm": b"\r\n\x1bc\x00"}


def look(program, *words):
    return subprocess.run([program, "look", *map(str, words)], capture_output=True, timeout=60)


def check_texts(program, folder):
    """A capture with hostile texts has the page of the capture with its own."""
    faults = []
    own = (HERE / "restart-pion.pcapng").read_bytes()
    hostile = own
    for text, bad in TEXTS.items():
        hostile = hostile.replace(text, bad[: len(text)].ljust(len(text), b"\x1b"))
    if hostile == own:
        faults.append("no text was found to be changed")
    (folder / "hostile").write_bytes(hostile)
    pages = [look(program, *words, file) for words in ([], ["--policy", POLICY]) for file in (HERE / "restart-pion.pcapng", folder / "hostile")]
    if any(page.returncode for page in pages):
        faults.append("a capture with hostile texts has no page")
    if pages[0].stdout != pages[1].stdout or pages[2].stdout != pages[3].stdout:
        faults.append("texts change the page")
    if any(byte != 10 and not 32 <= byte < 127 for byte in pages[1].stdout + pages[3].stdout):
        faults.append("a page has a byte that isn't printable")
    return faults


def check_refusals(program, folder):
    own = (HERE / "tcp-client.pcapng").read_bytes()
    (folder / "torn").write_bytes(own[:-3])
    (folder / "empty").write_bytes(LITTLE.head())
    drops = struct.pack("<IIIHHQHH", 0, 0, 0, 5, 8, 1, 0, 0)
    (folder / "drops").write_bytes(LITTLE.head() + LITTLE.block(5, drops))
    told = [
        (["--policy", POLICY, folder / "torn"], 2, b"refused C1 in capture 0: the capture ends inside a block"),
        ([HERE / "tcp-client.pcapng", folder / "torn"], 2, b"refused C1 in capture 1: the capture ends inside a block"),
        (["--policy", HERE / "plain.conf", HERE / "tcp-client.pcapng"], 2, b"refused P1 in policy line 1: a line of another form, or a line too few"),
        ([folder / "empty"], 2, b"refused no listen address is seen: no STUN response by UDP"),
        (["--policy", POLICY, folder / "drops"], 2, b"refused C11 in capture 0: packets were dropped while it was captured"),
        ([ANY_DEVICE], 2, b"refused C7 in capture 0: an interface that isn't Ethernet, as the device any"),
        ([folder / "absent"], 4, f"can't read {folder}/absent: No such file or directory (os error 2)".encode()),
    ]
    faults = []
    for words, status, line in told:
        done = look(program, *words)
        if (done.returncode, done.stdout, done.stderr) != (status, b"", b"turnprep: " + line + b"\n"):
            faults.append(f"{line.decode()}: status {done.returncode} {done.stderr.decode()}")
    for words in (["--lifetime", "x", HERE / "tcp-client.pcapng"], [], [HERE / "tcp-client.pcapng"] * 17):
        if look(program, *words).returncode != 5:
            faults.append(f"takes {len(words)} words")
    return faults


def sides_of(folder):
    """Captures of both interfaces, and a client that allocated and sent data, a second before the rest."""
    sides = (make_capture.Side(folder / "client.pcapng", 0, 0), make_capture.Side(folder / "peer.pcapng", 0, 64))
    client = make_capture.Client(0, sides)
    client.open(hang_ups.START)
    client.to_peer(hang_ups.START + SECOND // 1000, b"both sides")
    return sides, client


def closed(sides):
    for side in sides:
        side.out.close()
    return [side.out.name for side in sides]


def advice(program, folder, *captures):
    done = look(program, "--policy", folder / "policy", *captures)
    return [line.removeprefix("advice ") for line in done.stdout.decode().splitlines() if line.startswith("advice ")]


def client_side_ends(folder, says_when):
    """The peer's side goes on for three seconds more: seven datagrams leave to the peer. The client's last frame is its data."""
    sides, client = sides_of(folder)
    for number in range(7):
        sides[1].put(hang_ups.START + 1_500_000 + number * 500_000, client.relayed, client.peer, b"number %d" % number)
    if says_when:
        # Statistics of the client's side, written when the peer's side ended: it was quiet, and not at its end.
        moment = hang_ups.START + 4_500_000
        sides[0].out.write(struct.pack("<IIIIII", 5, 24, 0, moment >> 32, moment & 0xFFFFFFFF, 24))
    return closed(sides)


def icmp(number):
    """An ICMP error that says that the listen address is closed."""
    ip, port = SERVER
    sent = struct.pack("!BBHHHBBHII", 0x45, 0, 48, 0, 0, 64, 17, 0, 0xC6336401, ip) + struct.pack("!HHHH", 40000, port, 28, 0)
    error = struct.pack("!BBHI", 3, 3, 0, 0) + sent
    head = struct.pack("!BBHHHBBHII", 0x45, 0, 20 + len(error), 0, 0, 64, 1, 0, ip, 0xC6336401)
    return LITTLE.packet(START + number * 1000, ETHERNET + b"\x08\x00" + head + error)


def server_ends(returns):
    """A client allocates, and then the listen address is closed, after which it may respond again."""
    client = (0xC6336401, 40000)
    parts = [LITTLE.head(), packet(1, client, SERVER, message(3, b"")), packet(2, SERVER, client, success((0xC0000201, 50000))), icmp(5)]
    if returns:
        parts += [packet(7, client, SERVER, message(1, b"")), packet(8, SERVER, client, message(0x101, b""))]
    return b"".join(parts)


def edge():
    """A departure as the capture begins, which `cut` excludes, after the last frame of the clients' interface."""
    client, peer = (0xC6336401, 40000), (0xCB007109, 7000)
    relayed = LITTLE.packet(START + 10_000_000, ip_udp((0xC0000201, 50000), peer, b"before"), 1)
    return LITTLE.head(2) + packet(0, client, SERVER, message(3, b"")) + relayed


def long_frame(flags):
    whole = ip_frame(datagram(2000), flags=flags)
    return LITTLE.head() + LITTLE.packet(START, whole)


def fragmented():
    """Fragments of a client, and its data, which leaves from an address of nobody."""
    frames = [LITTLE.packet(START + n, frame) for n, frame in enumerate(cut(datagram(2000), [0, 1480]))]
    carrier = segment((0xC6336402, 50123), SERVER, 200)
    relayed = packet(2_000_000, (0xC0000201, 50000), (0xCB007109, 7000), b"x" * 100)
    return LITTLE.head() + b"".join(frames) + LITTLE.packet(START + 1_999_999_000, carrier) + relayed


def check_advice(program, folder):
    """What is advised of captures that were made here, with numbers that were worked out by hand."""
    faults = []
    policy = b"turnaudit-policy 1\nlisten 192.0.2.1:3478\nrelay 192.0.2.1:49152-65535\n"
    (folder / "policy").write_bytes(policy)

    def expect(name, captures, due, never=()):
        lines = [line for line in advice(program, folder, *captures) if "no statistics" not in line]
        missing = [line for line in due if line not in lines]
        if missing or any(word in line for line in lines for word in never):
            faults.append(f"{name}: {lines}")

    released = "4 datagrams left up to 2000000 us after the success response to a Refresh with LIFETIME 0, of 1 deletions, which is R4 (docs/FAULTS.md): to exclude them, cut --released-ms 2000"
    expect("hang-ups", hang_ups.build(folder, hang_ups.relays_on), [released])
    ended = "7 datagrams left after the last frame of interface 0, which is 3500000 us before the captures' end, and no captured arrival explains them: if that interface was captured no longer, cut --until 1700000001000000000"
    expect("an end three seconds earlier", client_side_ends(folder, False), [ended])
    expect("a quiet interface", client_side_ends(folder, True), [], ["--until"])
    end = START + 5000 - 1
    stopped = f"the listen address was closed at {START + 5000} (1 ICMP errors), and nothing left it afterwards: the server ended: cut --until {end}"
    (folder / "one").write_bytes(server_ends(False))
    expect("an end of the server", [folder / "one"], [stopped], ["restart", "--since"])
    (folder / "one").write_bytes(server_ends(True))
    expect("a restart", [folder / "one"], [f"the listen address was closed from {START + 5000} to {START + 5000} (1 ICMP errors): a restart: cut --until {end}, and cut --since {START + 5001} --from-start"])
    (folder / "one").write_bytes(edge())
    expect("a departure that cut excludes", [folder / "one"], [], ["--until"])
    (folder / "one").write_bytes(long_frame(0x4000))
    expect("a merged frame", [folder / "one"], ["1 frames are longer than an Ethernet frame and 0 ChannelData have more behind their data: offloads merged them (ethtool -K IF gro off gso off tso off)"])
    (folder / "one").write_bytes(long_frame(0))
    expect("a reassembled frame", [folder / "one"], [], ["offloads"])
    (folder / "one").write_bytes(fragmented())
    expect("fragments", [folder / "one"], ["2 fragments with an address of the service, which an audit refuses (V1): reassemble"], ["TLS"])
    (folder / "one").write_bytes(LITTLE.head() + packet(1, (0xC6336401, 40000), SERVER, message(4, b"")) + packet(2, SERVER, (0xC6336401, 40000), message(0x104, b"")))
    page = look(program, "--policy", folder / "policy", folder / "one").stdout
    if b"\nanswers 192.0.2.1:3478 1\n" not in page or b"silent" in page:
        faults.append("an address that responds to Refresh is silent")
    return faults


def segment(source, target, size):
    """A TCP segment."""
    (ip, port), (to, to_port) = source, target
    tcp = struct.pack("!HHIIBBHHH", port, to_port, 1, 1, 0x50, 0x18, 1000, 0, 0) + bytes(size)
    return ETHERNET + b"\x08\x00" + struct.pack("!BBHHHBBHII", 0x45, 0, 20 + len(tcp), 0, 0, 64, 6, 0, ip, to) + tcp


def ip_udp(source, target, payload):
    (ip, port), (to, to_port) = source, target
    header = struct.pack("!BBHHHBBHII", 0x45, 0, 28 + len(payload), 0, 0, 64, 17, 0, ip, to)
    return ETHERNET + b"\x08\x00" + header + struct.pack("!HHHH", port, to_port, 8 + len(payload), 0) + payload


def packet(number, source, target, payload):
    return LITTLE.packet(START + number * 1000, ip_udp(source, target, payload))


def message(kind, attributes):
    return struct.pack("!HHI", kind, len(attributes), COOKIE) + bytes(12) + attributes


def success(relayed):
    ip, port = relayed
    told = struct.pack("!HHBBHI", 0x16, 8, 0, 1, port ^ 0x2112, ip ^ COOKIE)
    return message(0x103, told + struct.pack("!HHI", 13, 4, 600))


def collisions(count):
    """So many clients of one transaction id, each of which is told another address and sends the same data."""
    parts = [LITTLE.head()]
    for number in range(count):
        client = (0xC6330000 + number // 60000, 1024 + number % 60000)
        relayed = (0xC0000200 + number % 3, 49152 + number // 3 % 16384)
        if number % 4 == 0:
            relayed = (0x0A000000 + number, 50000)
        four = [
            (client, SERVER, message(3, b"")),
            (SERVER, client, success(relayed)),
            (client, SERVER, b"\x40\x00\x00\x04same"),
            (relayed, (0xCB007109, 7000), b"same"),
        ]
        parts += [packet(4 * number + at, *one) for at, one in enumerate(four)]
    return b"".join(parts)


def check_collisions(program, folder, count):
    faults = []
    (folder / "many").write_bytes(collisions(count))
    try:
        done = look(program, "--policy", POLICY, folder / "many")
    except subprocess.TimeoutExpired:
        return ["collisions take more than a minute"]
    if done.returncode != 0 or b"\nanswers 192.0.2.1:3478 %d\n" % count not in done.stdout:
        faults.append("collisions have no page")
    if b"\nanswered %d longest-us 1\n" % count not in done.stdout:
        faults.append("answers of one transaction id are taken for one another")
    guessed = look(program, folder / "many")
    if guessed.returncode != 2 or b"--policy" not in guessed.stderr:
        faults.append("a policy of too many addresses is guessed")
    return faults


def main():
    program = pathlib.Path(sys.argv[1]).resolve()
    count = int(sys.argv[2]) if len(sys.argv) > 2 else 20_000
    with tempfile.TemporaryDirectory() as folder:
        folder = pathlib.Path(folder)
        faults = check_texts(program, folder) + check_refusals(program, folder) + check_advice(program, folder) + check_collisions(program, folder, count)
    for fault in faults:
        print(fault)
    print(f"pages of strangers' captures: {len(faults)} faults")
    return 1 if faults else 0


if __name__ == "__main__":
    sys.exit(main())
