#!/usr/bin/env python3
"""The help, the man pages and the completions name the same commands and options, and the man pages render without warnings.

    python3 tests/man_pages.py PROGRAM TURNPREP TURNEXPLAIN

What the help of each program says counts. It is compared with its page in docs/man, and with what bash, zsh and fish offer by the files of
completions/. turnaudit-rules(7) has to have each rule. Renderers and shells that aren't installed are left out, which is told.
"""

import contextlib
import os
import pathlib
import re
import shutil
import subprocess
import sys
import tempfile

HERE = pathlib.Path(__file__).resolve().parent
TOP = HERE.parent
sys.dont_write_bytecode = True
sys.path[:0] = [str(TOP / "tools"), str(HERE)]

import man_pages
import markdown
from plain.checker import TEXTS

OPTION = re.compile(r"(?<![\w-])(--[a-z][a-z-]*|-[a-zA-Z])(?![\w-])")
COMMANDS = "audit", "find", "live", "check"

# What lies in the folder where words are completed, and what of it `ca` may become, by the name that help gives the value. Others name no file.
FILES, FOLDERS = {"cap.pcapng", "cap a.pcapng", "other"}, {"captures"}
ANY = {"cap.pcapng", "cap a.pcapng", "captures"}
NAMED = {"CAPTURE": ANY, "FILE": ANY, "POLICY": ANY, "CREDENTIALS": ANY, "CERTIFICATE": ANY, "LIST": ANY, "DIR": FOLDERS}
# Commands by whose names files are called, too.
CALLED = {"policy", "client"}

# Markdown of every form, and lines that its page has.
FORMS = r"""# Title

## `live` and it's *so*

First - paragraph\* with `a-b 'c'`, **bold `code` on**, _line_ and [a link](https://example.org/x) or [a file](FILES.md).
.starts with a dot in the source

> quoted
>
>     in a quote

- one
  goes on
  - inner

      code inside
- two

1. first
2. second

| Word | Means | At most |
|---|---|---|
| `a \| b` | x | 1 |
| c | | 2 |

### S1 unplaced

#### Asked

```sh
.not a request \n 'x'
```
"""
FORMED = [
    '.SH "LIVE AND IT\'S SO"', ".SS \"S1 unplaced\"", "\\fBAsked\\fR", "\\&.not a request \\en \\(aqx\\(aq", "\\fB\\fBa | b\\fB\\fR", "Means: x", "At most: 1", "At most: 2",
    ".IP 2. 4", ".IP \\(bu 2", "code inside", "in a quote", "one goes on",
]
INLINE = "\\fBa\\-b \\(aqc\\(aq\\fR, \\fBbold \\fBcode\\fB on\\fR, \\fIline\\fR and a link (https://example.org/x) or a file."


class Tries:
    """What was asked so far, and how often it didn't hold."""

    def __init__(self):
        self.count = self.failed = 0

    def ask(self, name, holds, told=""):
        self.count += 1
        if not holds:
            self.failed += 1
            print(f"failed: {name} {told}")

    def same(self, name, wanted, found):
        self.ask(name, wanted == found, f"\n    wanted {sorted(wanted)}\n    found {sorted(found)}")


def said_by(*words, **others):
    return subprocess.run([str(word) for word in words], capture_output=True, text=True, **others)


def section_of(text, title):
    """The lines of a help's section."""
    return re.search(rf"^{title}:\n((?:  .*\n|\n(?=  ))*)", text, re.M)[1].splitlines()


def help_of(program):
    """The program's commands, what the program and each command take, and the statuses, as help tells them."""
    own = said_by(program, "--help").stdout
    # What is said of a command may go on in a line that stands further in.
    commands = {line.split()[0] for line in section_of(own, "Commands") if re.match(r"  \S", line)}
    statuses = {line.split()[0] for line in section_of(own, "Exit status(?:, that of turnaudit)?") if line.strip()}
    takes = {None: words_of(own)}
    for command in commands - {"help"}:
        takes[command] = words_of(said_by(program, command, "--help").stdout)
    return commands, takes, statuses


def try_help(tries, called, program, commands):
    """Each page of help has lines of at most 80 characters, and `help NAME` prints that of `NAME --help`."""
    for name in sorted(commands - {"help"}):
        page = said_by(program, name, "--help").stdout
        tries.same(f"{called} help {name}", page, said_by(program, "help", name).stdout)
        tries.same(f"{called} help {name} within 80 columns", [], [line for line in page.splitlines() if len(line) > 80])
    own = said_by(program, "--help").stdout
    tries.same(f"help of {called}", own, said_by(program, "-h").stdout)
    tries.same(f"help of {called} within 80 columns", [], [line for line in own.splitlines() if len(line) > 80])


def words_of(text):
    """The options that stand in front of what is said of them, each with the name of its value, and under None the name of the arguments."""
    argument = re.search(r"^Arguments:\n  [<\[](\w+)", text, re.M)
    words = {None: argument[1] if argument else ""}
    for head in (line.strip().partition("  ")[0] for line in section_of(text, "Options") if line.lstrip().startswith("-")):
        words.update(dict.fromkeys(OPTION.findall(head), head.partition(" <")[2].rstrip(">")))
    return words


def options_of(words):
    return words.keys() - {None}


def rows_of(blocks, title):
    """The first cells of the tables of a section."""
    behind = dict(markdown.sections(blocks, 2))[title]
    return [row[0] for block in behind if isinstance(block, markdown.Table) for row in block.rows]


def try_page(tries, name, commands, takes, statuses):
    """The program's page has the commands, the options of each, and the statuses of the help."""
    blocks = man_pages.document(f"man/{name}.1.md")
    synopsis, command = {}, None
    for line in dict(markdown.sections(blocks, 2))["Synopsis"][0].lines:
        words = line.split()
        # A command's line may go on in the next one.
        command = words[1] if words[0] == name else command
        if command in takes:
            synopsis.setdefault(command, {"-h", "--help"}).update(OPTION.findall(line))
    tries.same(f"the commands of {name}(1)", commands, {row.strip("`") for row in rows_of(blocks, "Commands")})
    for command in takes.keys() - {None}:
        tries.same(f"the synopsis of {name} {command}", options_of(takes[command]), synopsis.get(command, set()))
    tries.same(f"the options of {name}(1)", set().union(*map(options_of, takes.values())), {name for row in rows_of(blocks, "Options") for name in OPTION.findall(row)})
    tries.same(f"the statuses of {name}(1)", statuses, set(rows_of(blocks, "Exit status")))


def offered_by_bash(name, words):
    script = f'source {TOP}/completions/{name}.bash; COMP_WORDS=({name} "$@"); COMP_CWORD=$#; _{name}; printf "%s\\n" "${{COMPREPLY[@]}}"'
    return {row for row in said_by("bash", "--norc", "-c", script, "bash", *words).stdout.splitlines() if row}


def offered_by_fish(name, words):
    """What fish offers. Where a dash is typed it offers options behind any word: here not behind those that its file says take a value."""
    file = TOP / "completions" / f"{name}.fish"
    taking = {option for one in re.findall(r"(?: -s (\w))?(?: -l ([\w-]+))? -[rx] ", file.read_text()) for option in ("-" + one[0], "--" + one[1])}
    if words[-1].startswith("-") and taking.intersection(words[-2:-1]):
        return set()
    told = said_by("fish", "--no-config", "-c", f"source {file}; complete -C '{' '.join([name, *words])}'").stdout
    return {row.partition("\t")[0].replace("\\", "").rstrip("/") for row in told.splitlines()}


def offered_by_zsh(name, words):
    """What zsh would offer by what its own functions are given: here they only print their words."""
    script = (
        "_arguments() { [[ $1 == -C ]] && { [[ \"$*\" == *\"->$want\"* ]] && state=$want; words=(\"${typed[@]}\"); [[ $want == command ]] || return 0 }; print -l -- \"$@\" }\n"
        "_describe() { print -l -- \"${(@P)${@[-1]}}\" }\n"
        f"want=$1; shift; typed=(\"$@\"); source {TOP}/completions/_{name}"
    )
    state = "words" if len(words) > 1 else "command"
    told = said_by("zsh", "-f", "-c", script, "zsh", state, *words).stdout
    given = {option: (sign, action) for option, sign, action in re.findall(r"^(?:\([^)]*\))?\*?(-[\w-]+)([=+]?)\[.*?\](?::[^:]*:(.*))?$", told, re.M)}
    before = given.get(words[-2]) if len(words) > 1 else None
    if before and before[0]:
        return named_by(before[1], words[-1])
    argument = re.search(r"^\*:capture:(.*)$", told, re.M)
    return {*re.findall(r"^[a-z]+(?=:)", told, re.M), *given, *(named_by(argument[1], words[-1]) if argument else ())}


def named_by(action, begun):
    """What an action of zsh names here."""
    return {name for name in os.listdir() if name.startswith(begun) and (action == "_files" or action == "_files -/" and os.path.isdir(name))}


SHELLS = {"bash": offered_by_bash, "fish": offered_by_fish, "zsh": offered_by_zsh}


def try_completions(tries, shell, name, commands, takes):
    """The shell offers the commands first, then the options of the command, and files where the command or the option takes some."""
    def offered(*words):
        return SHELLS[shell](name, words)

    def dashed(*words):
        return {word for word in offered(*words, "-") | offered(*words, "--") if word.startswith("-")}

    def named(*words):
        return {word for word in offered(*words, "ca") if not word.startswith("-")}

    tries.same(f"what {shell} offers first of {name}", commands | options_of(takes[None]), offered("") | offered("-"))
    tries.same(f"what {shell} offers behind {name} help", commands if shell == "zsh" else commands - {"help"}, offered("help", ""))
    for command in takes.keys() - {None}:
        own = options_of(takes[command])
        tries.same(f"the options that {shell} offers behind {name} {command}", own, dashed(command))
        for other in commands & CALLED if "--policy" in own else ():
            tries.same(f"the options that {shell} offers behind {name} {command} --policy {other}", own, dashed(command, "--policy", other) | {"--policy"})
        for option, value in takes[command].items():
            words = [command, option] if option else [command]
            wanted = NAMED.get(value or takes[command][None], set())
            tries.same(f"the files that {shell} offers behind {name} {' '.join(words)}", wanted, named(*words))
            if option:
                tries.ask(f"whether {shell} offers options behind {name} {command} {option}", bool(value) != bool(dashed(*words)))


@contextlib.contextmanager
def in_scratch():
    """In a folder of files and a folder."""
    with tempfile.TemporaryDirectory(prefix="man-pages-") as room:
        for file in FILES:
            pathlib.Path(room, file).touch()
        for folder in FOLDERS:
            pathlib.Path(room, folder).mkdir()
        here = os.getcwd()
        os.chdir(room)
        try:
            yield
        finally:
            os.chdir(here)


RENDERERS = {
    "man": ["man", "--warnings=w", "-l"],
    "groff": ["groff", "-man", "-ww", "-rLL=80n", "-Tutf8", "-z"],
    "mandoc": ["mandoc", "-T", "lint", "-W", "warning"],
}


def try_renderers(tries, files):
    for name, command in RENDERERS.items():
        if not shutil.which(name):
            print(f"man_pages: no {name}, not tried")
            continue
        for file in files:
            ran = said_by(*command, file, env={**os.environ, "MANWIDTH": "80", "LC_ALL": "C.UTF-8"})
            told = ran.stderr if name == "man" else ran.stdout + ran.stderr
            tries.ask(f"{file.name} by {name}", ran.returncode == 0 and not told, told[:500])


def try_forms(tries, room):
    """Every form of Markdown becomes what it should, and gives no warning either."""
    lines = [".TH FORMS 7 2026-11-26", ".SH NAME", "forms \\- of text", *man_pages.tidy(man_pages.roff(markdown.read(FORMS)[1:], 2))]
    for wanted in FORMED:
        tries.ask("a form of Markdown", wanted in lines, f"gives no line {wanted!r}")
    tries.ask("what stands in a line", INLINE in " ".join(lines))
    page = room / "forms.7"
    page.write_text("\n".join(lines) + "\n")
    return page


def has_rule(text, rule):
    """Whether a rule has a heading or a row of its own, perhaps beside another's."""
    return re.search(rf'^(?:\.SS "|\\fB)(?:.*\W)?{rule}\b', text, re.M) is not None


def main():
    if len(sys.argv) != 4:
        sys.exit(__doc__.strip())
    program, prepares, explains = (pathlib.Path(word).resolve() for word in sys.argv[1:])
    tries = Tries()
    shells = [shell for shell in SHELLS if shutil.which(shell)]
    for shell in SHELLS:
        if shell not in shells:
            print(f"man_pages: no {shell}, not tried")
    tries.same("the commands of the help", set(COMMANDS) | {"help"}, help_of(program)[0])
    for name, each in (("turnaudit", program), ("turnprep", prepares), ("turnexplain", explains)):
        commands, takes, statuses = help_of(each)
        try_help(tries, name, each, commands)
        try_page(tries, name, commands, takes, statuses)
        with in_scratch():
            for shell in shells:
                try_completions(tries, shell, name, commands, takes)
    with tempfile.TemporaryDirectory(prefix="man-pages-") as room:
        one, other = pathlib.Path(room, "one"), pathlib.Path(room, "other")
        names = man_pages.write(one)
        said_by(sys.executable, TOP / "tools" / "man_pages.py", other, cwd=room, env={**os.environ, "PYTHONDONTWRITEBYTECODE": "1", "TZ": "Asia/Tokyo"})
        for name in names:
            tries.ask(f"{name} made twice", (one / name).read_bytes() == (other / name).read_bytes())
        rules = (one / "turnaudit-rules.7").read_text()
        for rule, text in TEXTS.items():
            tries.ask(f"rule {rule} in turnaudit-rules(7)", has_rule(rules, rule) and text in rules)
        release = said_by(program, "--version").stdout.partition(",")[0]
        tries.ask("the release", f'"{release}"' in rules, release)
        try_renderers(tries, [*(one / name for name in names), try_forms(tries, one)])
    print(f"man_pages: {tries.count} asked, {tries.failed} failed")
    sys.exit(1 if tries.failed else 0)


if __name__ == "__main__":
    main()
