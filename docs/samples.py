#!/usr/bin/env python3
"""docs/samples.py: whether README, GUIDE and COMMANDS show what `cedar` and `cedar_serve` print. `.ci/run` runs it after `rt ci`, on the
programs that this built; `./check` asks the same of a `cedar` that it built without proof, as far as one command alone shows it.

A sample is a block of the kind `console`. Each line `$ COMMAND` in it is run in a copy of `crates/cedar`, one for each page, in order, a
line that ends in `\\` with the next one; below it stands what it prints, standard error first. In these lines `..` is any text, and a line
`..` any lines. `$ echo $?` shows the status of the command above it. A command begins with a word of KNOWN.

No sample needs a network, or a program that Python does not have: `socat` only notes what it would start, `curl` hands that program the
request on standard input and prints the body of the answer, and `sqlite3` is Python's.

It prints a line for each sample that differs, and the last line counts them; the status is 0 where there are some and none differs."""
import json
import os
import re
import shlex
import shutil
import sqlite3
import subprocess
import sys
import tempfile

ROOT = os.path.dirname(os.path.dirname(os.path.realpath(__file__)))
PAGES = ["README.md", "docs/GUIDE.md", "docs/COMMANDS.md"]
PROGRAMS = ["cedar", "cedar_serve"]
KNOWN = [*PROGRAMS, "cat", "curl", "grep", "socat", "sqlite3"]
# Where `socat` notes what it would start.
STARTED = "started.json"


class Sample:
    def __init__(self, page, line, command):
        self.place, self.command = f"{page}:{line}", command
        self.lines, self.status = [], None

    @property
    def words(self):
        return shlex.split(self.command)

    def is_known(self):
        return self.words[0] in KNOWN or self.words == ["rt", "version"]

    def stands_alone(self):
        """Whether it is one command, and all files that it names are there before it is run."""
        if {"|", "<", ">", ">>", "&"} & set(self.words):
            return False
        words = list(zip(self.words, self.words[1:]))
        named = [it for option, it in words if option != "--save" and re.search(r"\.(cedar|jsonl?)$", it)]
        return all(os.path.isfile(f"{ROOT}/crates/cedar/{it}") for it in named)

    def pattern(self, lines):
        parts = [".*\n" if it == ".." else re.escape(it).replace(r"\.\.", "[^\n]*") + "\n" for it in lines]
        return "".join(f"(?:{it})*" if it == ".*\n" else it for it in parts)

    def shows(self, printed):
        return re.fullmatch(self.pattern(self.lines), printed.rstrip("\n") + "\n" if printed else "")

    def fault(self, printed, status):
        """What is wrong, of what is printed on standard output alone: standard error stands above it."""
        texts = [self.pattern(self.lines[it:]) for it in range(len(self.lines) + 1)]
        text = printed.rstrip("\n") + "\n" if printed else ""
        is_shown = any(re.fullmatch(it, text) for it in texts) and (printed or not self.lines or self.status)
        if status is None or not is_shown or self.status not in (None, status):
            return f"{self.place}: status {status}, and prints:\n{printed}"
        return None


def blocks(page):
    """The samples of a page, a list for each block."""
    with open(f"{ROOT}/{page}", encoding="utf-8") as it:
        lines = it.read().split("\n")
    inside, found = None, []
    for number, line in enumerate(lines, 1):
        if inside is None:
            inside = [] if line == "```console" else None
        elif line == "```":
            found.append(inside)
            inside = None
        elif inside and inside[-1].command.endswith("\\"):
            inside[-1].command = inside[-1].command[:-1] + line.strip()
        elif line == "$ echo $?":
            inside[-1].status = ""
        elif line.startswith("$ "):
            inside.append(Sample(page, number, line[2:]))
        elif inside[-1].status == "":
            inside[-1].status = line
        else:
            inside[-1].lines.append(line)
    if inside is not None:
        sys.exit(f"docs/samples: {page}: a block of samples that does not end")
    return found


def single(program):
    """The samples of this program that need none before them."""
    for page in PAGES:
        for block in blocks(page):
            yield from (it for it in block if it.words[0] == program and it.stands_alone())


def faults_of(block, folder):
    """Runs the commands of a block in order."""
    for sample in block:
        if not sample.is_known():
            yield f"{sample.place}: not a command that is compared: {sample.command}"
            continue
        how = {"cwd": folder, "stdin": subprocess.DEVNULL, "stdout": subprocess.PIPE, "stderr": subprocess.STDOUT}
        ended = subprocess.run(["bash", "-c", sample.command], env={**os.environ, "PATH": f"{folder}/bin:{os.environ['PATH']}"}, **how)
        printed = ended.stdout.decode(errors="replace")
        if not sample.shows(printed) or sample.status not in (None, str(ended.returncode)):
            yield f"{sample.place}: status {ended.returncode}, and prints:\n{printed}"


def socat(words):
    """Notes the words of `EXEC:PROGRAM`, options of socat's aside."""
    started = re.fullmatch(r"EXEC:(.*?)(?:,\w+)*", words[-1])[1]
    with open(STARTED, "w", encoding="utf-8") as it:
        json.dump(shlex.split(started), it)


def curl(words):
    """Asks the program that was noted one request, of `-s URL`, `-d BODY` and `-H FIELD`."""
    url, body, fields = None, b"", ["Host: localhost", "Connection: close"]
    rest = iter(words)
    for word in rest:
        if word == "-d":
            body = next(rest).encode()
        elif word == "-H":
            fields.append(next(rest))
        elif word != "-s":
            url = word
    path = re.fullmatch(r"http://[^/]*(/.*)", url)[1]
    head = [f"{'POST' if body else 'GET'} {path} HTTP/1.1", *fields, f"Content-Length: {len(body)}", "", ""]
    with open(STARTED, encoding="utf-8") as it:
        program = json.load(it)
    ended = subprocess.run(program, input="\r\n".join(head).encode() + body, stdout=subprocess.PIPE, check=False)
    print(ended.stdout.decode(errors="replace").partition("\r\n\r\n")[2])


def query(words):
    """`sqlite3 FILE [SQL]`: each row on a line."""
    base = sqlite3.connect(words[0])
    if len(words) == 1:
        base.executescript(sys.stdin.read())
    for row in base.execute(words[1]) if words[1:] else []:
        print("|".join("" if it is None else str(it) for it in row))
    base.close()


STANDINS = {"curl": curl, "socat": socat, "sqlite3": query}


def put_programs(folder):
    """A folder of the programs that samples start."""
    os.mkdir(folder)
    for name in PROGRAMS:
        os.symlink(f"{ROOT}/crates/{name}/out/{name}", f"{folder}/{name}")
    for name in STANDINS:
        with open(f"{folder}/{name}", "w", encoding="utf-8") as it:
            it.write(f"#!/bin/sh\nexec {shlex.quote(sys.executable)} {shlex.quote(os.path.realpath(__file__))} {name} \"$@\"\n")
        os.chmod(f"{folder}/{name}", 0o755)


def main():
    passed = failed = 0
    for page in PAGES:
        with tempfile.TemporaryDirectory(prefix="samples-") as folder:
            shutil.copytree(f"{ROOT}/crates/cedar/data", f"{folder}/data")
            put_programs(f"{folder}/bin")
            for block in blocks(page):
                faults = list(faults_of(block, folder))
                passed, failed = passed + len(block) - len(faults), failed + len(faults)
                for it in faults:
                    print(f"docs/samples: {it}")
    print(f"docs/samples: {passed} passed, {failed} failed")
    sys.exit(1 if failed or not passed else 0)


if __name__ == "__main__":
    if sys.argv[1:2] and sys.argv[1] in STANDINS:
        STANDINS[sys.argv[1]](sys.argv[2:])
    else:
        main()
