#!/usr/bin/env python3
"""Compares what `wcrun check` says of reports with what tools/check-report says of them.

    tools/check-test.py [--program PROGRAM] [--changed COUNT] [--seed N] SCRIPT..

Each script is replayed where it has an order; one that is refused, or has none, is passed over. Both have to call its report
right. Of COUNT copies with one change each (20, where it is left out) both have to say the same, with the same line. Every
difference is printed. Status 1 where there is one.
"""
import argparse
import importlib.machinery
import importlib.util
import os
import random
import subprocess
import sys
import tempfile

HERE = os.path.dirname(os.path.realpath(__file__))
sys.dont_write_bytecode = True
sys.path.insert(0, os.path.join(HERE, "reading"))
from report_reading import verdict  # noqa: E402
from run_model import Script  # noqa: E402


def loaded(name):
    """A tool of this folder that has no ending in its name, as a module."""
    loader = importlib.machinery.SourceFileLoader(name.replace("-", "_"), os.path.join(HERE, name))
    module = importlib.util.module_from_spec(importlib.util.spec_from_loader(loader.name, loader))
    loader.exec_module(module)
    return module


CHECK_REPORT = loaded("check-report")


def run(program, words, folder):
    return subprocess.run([program] + words, cwd=folder, stdout=subprocess.PIPE, stderr=subprocess.DEVNULL, timeout=60)


def by_program(program, script, text):
    """The line that the program names, None where it says `right`, or what else it said."""
    with tempfile.NamedTemporaryFile("w", encoding="utf-8", newline="") as file:
        file.write(text)
        file.flush()
        ran = run(program, ["check", os.path.basename(script), file.name], os.path.dirname(os.path.abspath(script)))
    said = ran.stdout.decode()
    if (ran.returncode, said) == (0, "right\n"):
        return None
    if ran.returncode == 1 and said.startswith("wrong: line "):
        return int(said[len("wrong: line "):])
    return "status %d, %r" % (ran.returncode, said)


def tried(program, script, count, dice):
    """How many reports of a script were compared, and how many differed."""
    replay = run(program, ["replay", os.path.basename(script)], os.path.dirname(os.path.abspath(script)))
    model = Script(script) if replay.returncode == 0 else None
    if model is None or model.order is None:
        return 0, 0
    text = replay.stdout.decode()
    copies = [("as it is", 0, text)] + [CHECK_REPORT.changed(text, dice) for _ in range(count)]
    bad = 0
    for kind, at, copy in copies:
        found = verdict(model, copy)
        wanted, got = found and found[0], by_program(program, script, copy)
        if got != wanted or (kind == "as it is" and got is not None):
            bad += 1
            print("%s: %s at %d: the program says %s, tools/check-report %s" % (script, kind, at, got, CHECK_REPORT.said(found)))
    return len(copies), bad


def main():
    parser = argparse.ArgumentParser(description=__doc__.splitlines()[0])
    parser.add_argument("--program")
    parser.add_argument("--changed", type=int, default=20, metavar="COUNT")
    parser.add_argument("--seed", type=int, default=1)
    parser.add_argument("scripts", nargs="+", metavar="SCRIPT")
    given = parser.parse_args()
    program = os.path.abspath(given.program or subprocess.run([os.path.join(HERE, "program")], stdout=subprocess.PIPE, check=True).stdout.decode().strip())
    dice, all_tried, all_bad = random.Random(given.seed), 0, 0
    for script in given.scripts:
        count, bad = tried(program, script, given.changed, dice)
        all_tried, all_bad = all_tried + count, all_bad + bad
    print("%d reports compared, %d differ" % (all_tried, all_bad))
    return 1 if all_bad else 0


if __name__ == "__main__":
    sys.exit(main())
