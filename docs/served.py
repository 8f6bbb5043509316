#!/usr/bin/env python3
"""docs/served.py: whether `cedar_serve`, with other options than those of its recorded conversation, answers and logs what stands in
`crates/cedar_serve/runs`. `.ci/run` runs it after `rt ci`, on the program that this built.

A run is a file NAME.args, one word a line; NAME.stdin is what comes over the connection, NAME.stdout what has to go out, byte for byte. NAME.log is
what has to stand in the file `decisions.log` at the end; without NAME.log there is no such file. NAME.before is what stood in it before. NAME.status is
the exit status, if it is not 0. Each run has the files of `crates/cedar_serve/data` beside it.

It prints a line for each difference, and the last line counts the runs; the status is 0 where there are some and none differs."""
import os
import shutil
import subprocess
import sys
import tempfile

ROOT = os.path.dirname(os.path.dirname(os.path.realpath(__file__)))
RUNS = f"{ROOT}/crates/cedar_serve/runs"
LOG = "decisions.log"


def names():
    return sorted(it.removesuffix(".args") for it in os.listdir(RUNS) if it.endswith(".args"))


def read(path):
    """The bytes of a file; None where there is none."""
    if not os.path.isfile(path):
        return None
    with open(path, "rb") as it:
        return it.read()


def wanted_status(name):
    return int(read(f"{RUNS}/{name}.status") or 0)


def faults_of(name, program):
    """What this run of the program does otherwise."""
    with tempfile.TemporaryDirectory(prefix="served-") as folder:
        shutil.copytree(f"{ROOT}/crates/cedar_serve/data", folder, dirs_exist_ok=True)
        if os.path.isfile(f"{RUNS}/{name}.before"):
            shutil.copyfile(f"{RUNS}/{name}.before", f"{folder}/{LOG}")
        words = read(f"{RUNS}/{name}.args").decode().splitlines()
        with open(f"{RUNS}/{name}.stdin", "rb") as given:
            ended = subprocess.run([program, *words], cwd=folder, stdin=given, stdout=subprocess.PIPE, stderr=subprocess.PIPE, timeout=60)
        logged = read(f"{folder}/{LOG}")
    if ended.stdout != read(f"{RUNS}/{name}.stdout"):
        yield f"prints {ended.stdout!r}"
    if logged != read(f"{RUNS}/{name}.log"):
        yield f"logs {logged!r}"
    if ended.returncode != wanted_status(name):
        yield f"ends with {ended.returncode}: {ended.stderr.decode(errors='replace')}"


def main():
    program = f"{ROOT}/crates/cedar_serve/out/cedar_serve"
    faults = {name: list(faults_of(name, program)) for name in names()}
    for name, told in faults.items():
        for it in told:
            print(f"docs/served: {name} {it}")
    failed = sum(bool(it) for it in faults.values())
    print(f"docs/served: {len(faults) - failed} passed, {failed} failed")
    sys.exit(1 if failed or not faults else 0)


if __name__ == "__main__":
    main()
