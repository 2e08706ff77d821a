#!/usr/bin/env python3
"""Asks of the page that `turnexplain evidence` writes what is asked of it.

    tests/explain_page.py TURNEXPLAIN

It is HTML whose elements are closed, asks for nothing from elsewhere and has no script; the same inputs give the same page; the
digests, sizes, packets and moments are those of the files; it has no password, and no digest of one; names out of files can't become
markup; a file that is there is kept; it has the list of what turnprep cut, or says by the last section's comment that there is one; of
a capture that changes meanwhile there is none; its picture has an axis, a legend and the deleted allocations, and each mark is inside
it. Where there is a Chromium, it opens the page without an error on its console and prints it.
"""

import hashlib
import html.parser
import os
import pathlib
import re
import shutil
import struct
import subprocess
import sys
import tempfile

import explain_captures

TOP = pathlib.Path(__file__).resolve().parent.parent
VOID = {"meta", "br", "rect"}
MARKUP = "<script>alert(1)</script>'\"&"


class Looking(html.parser.HTMLParser):
    """What the page has: whether each element is closed, and what could ask for something."""

    def __init__(self):
        super().__init__()
        self.open, self.faults = [], []

    def handle_starttag(self, tag, attrs):
        if tag in ("script", "link", "img", "iframe", "object", "form", "a"):
            self.faults.append(f"has <{tag}>")
        for name, value in attrs:
            if name in ("src", "href") or name.startswith("on") or "url(" in (value or ""):
                self.faults.append(f"has {name}={value}")
        if tag not in VOID:
            self.open.append(tag)

    def handle_startendtag(self, tag, attrs):
        self.handle_starttag(tag, attrs)
        if tag not in VOID:
            self.open.pop()

    def handle_endtag(self, tag):
        if not self.open or self.open.pop() != tag:
            self.faults.append(f"closes </{tag}>")


def page_of(program, words, folder, name="page.html"):
    """What `evidence` does: its status, and the page."""
    file = pathlib.Path(folder) / name
    done = subprocess.run([program, "evidence", "-o", file, *words], capture_output=True, text=True)
    return done, file.read_text() if file.is_file() else ""


def looked_at(page):
    """What is wrong with a page's markup."""
    looking = Looking()
    looking.feed(page)
    looking.close()
    faults = list(looking.faults)
    if looking.open:
        faults.append(f"leaves {looking.open} open")
    if "http:" in page or "https:" in page:
        faults.append("names an address")
    if re.search(r"[\x00-\x08\x0b-\x1f\x7f]", page):
        faults.append("has control characters")
    return faults


def check_example(program, example, status, folder):
    """What is wrong with the page of an example."""
    captures = sorted(example.glob("*.pcapng"))
    policy, users = example / "policy", example / "creds"
    words = ["--policy", policy, "--creds", users, *captures]
    done, page = page_of(program, words, folder, f"{example.name}.html")
    faults = looked_at(page)
    if done.returncode != status:
        faults.append(f"status {done.returncode}: {done.stderr}")
    for file in (policy, *captures):
        content = file.read_bytes()
        if hashlib.sha256(content).hexdigest() not in page or f"<td class=\"number\">{len(content)}</td>" not in page:
            faults.append(f"lacks the digest or the size of {file.name}")
    if hashlib.sha256(users.read_bytes()).hexdigest() in page:
        faults.append("has a digest by which passwords can be tried")
    for line in users.read_text().splitlines():
        name, realm, password = line.split("\t")
        told = re.sub(r"<td[^>]*>[^<]*</td>", "", page)
        if re.search(rf"\b{re.escape(password)}\b", told) and password not in (name, realm, "pass"):  # a word of the account, too
            faults.append("has a password")
    if hashlib.sha256((TOP / "docs" / "headline.txt").read_bytes()).hexdigest() not in page:
        faults.append("has another headline's digest")
    if hashlib.sha256(pathlib.Path(program).read_bytes()).hexdigest() not in page:
        faults.append("has another program's digest")
    for line in policy.read_text().splitlines():
        if line not in page:
            faults.append(f"lacks the policy's line {line}")
    again, same = page_of(program, words, folder, "again.html")
    if same != page:
        faults.append("is another one the second time")
    kept, _ = page_of(program, words, folder, "again.html")
    if kept.returncode != 4:
        faults.append("is written over")
    (pathlib.Path(folder) / "again.html").unlink()
    return [f"{example.name}: {fault}" for fault in faults]


def check_markup(program, folder):
    """Names that would be markup."""
    example = TOP / "examples" / "coturn-permission-outlived"
    users = pathlib.Path(folder) / "creds<b>"
    users.write_text((example / "creds").read_text() + f"{MARKUP}\tre<i>alm\tsecretly\n")
    capture = pathlib.Path(folder) / "cap<script>.pcapng"
    shutil.copyfile(example / "cap.pcapng", capture)
    done, page = page_of(program, ["--policy", example / "policy", "--creds", users, capture], folder, "markup.html")
    faults = looked_at(page)
    if done.returncode != 1 or "secretly" in page or "&lt;script&gt;alert(1)" not in page:
        faults.append("doesn't tell the user plainly")
    return [f"markup: {fault}" for fault in faults]


def with_comment(capture, comment):
    """The bytes of a capture whose section header has this comment."""
    length = struct.unpack_from("<I", capture, 4)[0]
    option = struct.pack("<HH", 1, len(comment)) + comment + bytes(-len(comment) % 4)
    head = capture[8:24] + option + (capture[24:length - 4] or struct.pack("<HH", 0, 0))
    whole = struct.pack("<I", len(head) + 12)
    return capture[:4] + whole + head + whole + capture[length:]


def check_cut(program, folder):
    """Captures that `turnprep cut` wrote: their page says so before the verdict's meaning, and has the list and the comment of a capture."""
    example = TOP / "examples" / "coturn-channels-two-files"
    words = ["--policy", example / "policy", "--creds", example / "creds"]
    cut, other = pathlib.Path(folder) / "cut.pcapng", pathlib.Path(folder) / "other.pcapng"
    cut.write_bytes(with_comment((example / "client.pcapng").read_bytes(), b"turnprep cut: 7 datagrams excluded <b>"))
    other.write_bytes(with_comment((example / "client.pcapng").read_bytes(), b"my holiday"))
    listed = pathlib.Path(folder) / "list"
    listed.write_text("client 198.51.100.7:1 192.0.2.1:3478 in 1 1 out 2 2\n<i>\n")
    faults = []
    done, page = page_of(program, [*words, "--excluded", listed, cut, example / "peer.pcapng"], folder, "cut.html")
    says, means = page.find("turnprep excluded datagrams from the captures"), page.find("Some one order of all captured")
    if done.returncode != 0 or not 0 < says < means:
        faults.append("doesn't say first that datagrams were excluded")
    if "The comment of capture 0: turnprep cut: 7 datagrams excluded &lt;b&gt;" not in page:
        faults.append("lacks the comment")
    if "client 198.51.100.7:1 192.0.2.1:3478 in 1 1 out 2 2\n&lt;i&gt;" not in page:
        faults.append("lacks the list")
    done, page = page_of(program, [*words, other, example / "peer.pcapng"], folder, "other.html")
    if "my holiday" not in page or "turnprep excluded" in page:
        faults.append("lacks a comment, or says without a list that datagrams were excluded")
    done, page = page_of(program, [*words, "--excluded", folder + "/no-list", cut, example / "peer.pcapng"], folder, "no.html")
    if done.returncode != 4 or page:
        faults.append("makes a page without the list that is named")
    return [f"cut: {fault}" for fault in faults] + [f"cut: {fault}" for fault in looked_at(page)]


def section(comment):
    """A section header block without interfaces, little endian, whose only option is this comment (pcapng, sections 3.5 and 4.1)."""
    option = struct.pack("<HH", 1, len(comment)) + comment + bytes(-len(comment) % 4) + struct.pack("<HH", 0, 0)
    length = 28 + len(option)
    return struct.pack("<IIIHHq", 0x0A0D0D0A, length, 0x1A2B3C4D, 1, 0, -1) + option + struct.pack("<I", length)


def check_last_section(program, folder):
    """Captures that end with a section header whose comment is of `turnprep cut`: the page says so before the verdict's meaning, has that
    comment and none of the sections before, and names the option for the list. The verdict is that of the capture without the section."""
    cut = "turnprep cut: kept 4444 packets and excluded 123, which the list set-aside has; SHA-256 of the original: " + 32 * "0f"
    says, faults = "turnprep excluded packets from the captures", []
    for name, file, status, means in (
        ("coturn-channels-two-files", "client.pcapng", 0, "Some one order of all captured"),
        ("coturn-permission-outlived", "cap.pcapng", 1, "The order of the captured datagrams that was tried"),
    ):
        example = TOP / "examples" / name
        original = (example / file).read_bytes()
        of_another = with_comment(original, b"my holiday")
        others = [one for one in sorted(example.glob("*.pcapng")) if one.name != file]
        words = ["--policy", example / "policy", "--creds", example / "creds"]
        verdicts = []
        for case, content, is_cut, comment in (
            ("none", original, False, None),
            ("another", of_another, False, "my holiday"),
            ("cut", original + section(cut.encode()), True, cut),
            ("another, cut", of_another + section(cut.encode()), True, cut),
            ("cut, another", original + section(cut.encode()) + section(b"my holiday"), False, "my holiday"),
            ("cut, without", original + section(cut.encode()) + original[:struct.unpack_from("<I", original, 4)[0]], True, cut),
        ):
            (folder / "last").mkdir(exist_ok=True)
            (folder / "last" / file).write_bytes(content)
            done, page = page_of(program, [*words, folder / "last" / file, *others], folder, "last.html")
            (folder / "last.html").unlink(missing_ok=True)
            wanted = [f"The comment of capture 0: {comment}"] if comment else []
            if done.returncode != status or [line[3:-4] for line in page.splitlines() if line.startswith("<p>The comment of")] != wanted:
                faults.append(f"{name}, {case}: status {done.returncode}, or the comments aren't {wanted}")
            if is_cut != (0 < page.find(says) < page.find(means)) or is_cut != ("--excluded FILE" in page) or "What was excluded" in page:
                faults.append(f"{name}, {case}: says that packets were excluded where they weren't, or doesn't")
            faults += [f"{name}, {case}: {fault}" for fault in looked_at(page)]
            given = [program, "verdict", *words, file, *others]
            done = subprocess.run(given, capture_output=True, cwd=folder / "last", check=False)
            verdicts.append((done.returncode, done.stdout, done.stderr))
        if len(set(verdicts)) != 1 or verdicts[0][0] != status:
            faults.append(f"{name}: the verdict depends on the last section: {verdicts}")
        listed = folder / "list"
        listed.write_text("client 198.51.100.7:1 192.0.2.1:3478 in 1 1 out 2 2\n")
        (folder / "last" / file).write_bytes(original + section(cut.encode()))
        _, page = page_of(program, [*words, "--excluded", listed, folder / "last" / file, *others], folder, f"last-{name}.html")
        if says in page or "turnprep excluded datagrams from the captures" not in page or cut not in page:
            faults.append(f"{name}: with its list the page isn't about that alone")
    return [f"last section: {fault}" for fault in faults]


def check_changing(program, folder):
    """A capture that is replaced after it was judged and before it is read again: an error with its name, and nothing is filed."""
    if shutil.which("gcc") is None:
        print("no gcc is there: no capture changes while it is read")
        return []
    example, library = TOP / "examples" / "coturn-channels-two-files", pathlib.Path(folder) / "swapping_open.so"
    subprocess.run(["gcc", "-shared", "-fPIC", "-O1", "-o", library, TOP / "tests" / "swapping_open.c", "-ldl"], check=True)
    faults = []
    for command in (["verdict"], ["verdict", "--json"], ["lanes"], ["client", "--lane", "0"], ["evidence", "-o", folder + "/changed.html"]):
        capture, other = pathlib.Path(folder) / "changing.pcapng", pathlib.Path(folder) / "other.pcapng"
        shutil.copyfile(example / "client.pcapng", capture)
        shutil.copyfile(TOP / "examples" / "coturn-permission-outlived" / "cap.pcapng", other)
        words = [program, *command, "--policy", example / "policy", "--creds", example / "creds", capture, example / "peer.pcapng"]
        environment = {**os.environ, "LD_PRELOAD": str(library), "SWAPPED": str(capture), "SWAPPED_FOR": str(other)}
        done = subprocess.run(words, capture_output=True, text=True, timeout=60, env=environment)
        if done.returncode != 4 or done.stdout or not done.stderr.endswith("changing.pcapng changed while it was read\n") or other.exists():
            faults.append(f"{command[0]} of a capture that changes: status {done.returncode}, {done.stdout!r}, {done.stderr!r}")
    if (pathlib.Path(folder) / "changed.html").exists():
        faults.append("a page is filed of a capture that changes")
    return faults


def check_picture(program, folder):
    """The picture of a breach: each mark is inside, the axis has the times, a deleted allocation is drawn in its own pattern, and the legend has each mark."""
    (folder / "policy").write_text(explain_captures.POLICY)
    (folder / "users").write_text(explain_captures.USERS)
    (folder / "r4.pcapng").write_bytes(explain_captures.DELETED)
    done, page = page_of(program, ["--policy", folder / "policy", "--creds", folder / "users", folder / "r4.pcapng"], folder, "picture.html")
    faults = looked_at(page)
    picture = page[page.find("<svg"):page.find("</svg>")]
    width = int(re.search(r'viewBox="0 0 (\d+) ', picture)[1])
    ends = [int(x) + int(wide) for x, wide in re.findall(r'<rect x="(\d+)" y="\d+" width="(\d+)"', picture)]
    if done.returncode != 1 or not ends or max(ends) >= width:
        faults.append(f"a mark ends at {max(ends, default=None)} of {width}")
    # The client's datagrams are seen from 1.000 to 503.200 milliseconds after the first frame.
    for time_of_axis in ("+0.0010 s", "+0.1266 s", "+0.2521 s", "+0.3777 s", "+0.5032 s"):
        if f">{time_of_axis}<" not in picture:
            faults.append(f"the axis lacks {time_of_axis}")
    if picture.count("stroke-dasharray") != 1 or "allocation 192.0.2.1:50000" not in picture:
        faults.append("the deleted allocation isn't drawn")
    for words in ("lasts", "in the grace", "ended by a request", "a datagram of the client", "the datagram that breaks the rule"):
        if words not in page[page.find('class="legend"'):]:
            faults.append(f"the legend lacks: {words}")
    proved = b", proved with " in subprocess.run([program, "--version"], capture_output=True).stdout
    if proved == ("built without its proofs" in page):
        faults.append("doesn't say whether the program is proved")
    return [f"picture: {fault}" for fault in faults]


def check_browser(folder):
    """What Chromium says of the pages."""
    browser = shutil.which("chromium") or shutil.which("chromium-browser") or shutil.which("google-chrome")
    if browser is None:
        print("no Chromium is there: the pages aren't opened in it")
        return []
    faults = []
    for file in sorted(pathlib.Path(folder).glob("*.html")):
        words = [browser, "--headless", "--no-sandbox", "--disable-gpu", "--enable-logging=stderr", "--v=0"]
        done = subprocess.run([*words, f"--print-to-pdf={file}.pdf", file], capture_output=True, text=True, timeout=120)
        if "CONSOLE" in done.stderr or not pathlib.Path(f"{file}.pdf").is_file():
            faults.append(f"{file.name}: {done.stderr[-300:]}")
    return faults


def main():
    program = pathlib.Path(sys.argv[1]).resolve()
    with tempfile.TemporaryDirectory() as folder:
        faults = []
        for name, status in (("coturn-permission-outlived", 1), ("coturn-channels-two-files", 0), ("coturn-24-clients", 0)):
            faults += check_example(program, TOP / "examples" / name, status, folder)
        faults += check_markup(program, folder)
        faults += check_cut(program, folder)
        faults += check_last_section(program, pathlib.Path(folder))
        faults += check_changing(program, folder)
        faults += check_picture(program, pathlib.Path(folder))
        faults += check_browser(folder)
    for fault in faults:
        print(fault)
    print(f"pages: {len(faults)} faults")
    return 1 if faults else 0


if __name__ == "__main__":
    sys.exit(main())
