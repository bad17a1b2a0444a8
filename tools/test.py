#!/usr/bin/env python3
"""Runs every check of the repository: the README's test command.

The parts run one after the other; each line that a part prints is shown with the time since the start. The first part that
fails ends the run with its status. What each part says that it compared ("compared: ..") is said again at the end, and a part
that compares has to say it. The last line of `rt ci`, its count, is kept back and printed as the last line of all. Each wrong
version of must-fail/ has to be refused: one that cannot be applied or read, which `rt ci` lets pass, fails this run.
"""
import queue
import re
import subprocess
import sys
import threading
import time
from pathlib import Path

TOP = Path(__file__).resolve().parent.parent
BEGAN = time.monotonic()
QUIET = 30  # seconds after which a part that prints nothing is said to be at work still


def say(text):
    passed = int(time.monotonic() - BEGAN)
    print(f"[{passed // 60:3d}:{passed % 60:02d}] {text}", flush=True)


def lines_of(command):
    """The command's lines as it prints them, None for each quiet spell, and at last its exit status."""
    process = subprocess.Popen(command, stdout=subprocess.PIPE, stderr=subprocess.STDOUT, text=True, errors="replace")
    printed = queue.Queue()

    def read():
        for line in process.stdout:
            printed.put(line.rstrip("\n"))
        printed.put(process.wait())

    threading.Thread(target=read, daemon=True).start()
    while True:
        try:
            item = printed.get(timeout=QUIET)
        except queue.Empty:
            yield None
            continue
        yield item
        if isinstance(item, int):
            return


def run(name, command):
    """Runs one part and hands back its lines, the last of which is not shown; ends the whole run where the part fails."""
    say(f"{name}: {' '.join(command)}")
    began, last, lines = time.monotonic(), None, []
    for item in lines_of(command):
        passed = int(time.monotonic() - began)
        if item is None:
            say(f"{name}: at work, {passed} s so far")
            continue
        if last is not None and item != 0:
            say(last)
        if isinstance(item, str):
            last = item
            lines.append(item)
        elif item != 0:
            say(f"{name}: FAILED with status {item}, {passed} s")
            sys.exit(item)
    return lines


def part(name, command):
    """Runs one part, and shows its last line too, with the seconds it took; hands back what it says that it compared."""
    began = time.monotonic()
    lines = run(name, command)
    say(f"{lines[-1] if lines else name} ({int(time.monotonic() - began)} s)")
    return [line.removeprefix("compared: ") for line in lines if line.startswith("compared: ")]


def compared(name, command):
    """Runs a part that compares: it has to say what."""
    said = part(name, command)
    if not said:
        say(f"{name}: FAILED, it does not say what it compared")
        sys.exit(1)
    return said


def proofs_fault(lines):
    """What is wrong with the lines of an `rt ci` that ended well, or None: its count, and every wrong version refused."""
    if not (lines and re.fullmatch(r"[1-9]\d* passed, 0 failed", lines[-1])):
        return f"rt ci ends with {lines[-1:]} and not with its count"
    told = [line for line in lines if line.startswith("rt: ok;")]
    if len(told) != 1:
        return f"rt ci says {len(told)} times that all is ok"
    bad = re.search(r"(\d+) bad\b", told[0])
    if bad and int(bad[1]) > 0:
        return f"{bad[1]} bad must-fail edits, which rt ci names above"
    if "only by a limit" in told[0]:
        return "a must-fail edit was refused only by a limit of the prover"
    refused = re.search(r"must-fail edits: (\d+) refused", told[0])
    count, edits = int(refused[1]) if refused else 0, len(list((TOP / "crates").glob("*/must-fail/*.edit")))
    return None if count == edits else f"{count} must-fail edits were refused, and there are {edits}"


BEFORE = [("promises", [sys.executable, "tools/promises.py"])]
VECTORS = [sys.executable, "tools/vectors.py", "oracle/recorded/cases.jsonl", "420", "./crabuledda", "case"]
AFTER = [
    ("hosts", ["host/test"]),
    ("oracle", ["oracle/check", "--cases", "2000"]),
    ("cases", VECTORS),
    ("blocks", [*VECTORS, "--blocks", "56"]),
    ("compare", ["./crabuledda", "compare", "--cases", "1100", "--edges", "600", "--random", "400"]),
]


def main():
    for name, command in BEFORE:
        part(name, command)
    lines = run("proofs", ["rt", "ci"])
    fault = proofs_fault(lines)
    if fault:
        say(f"proofs: FAILED, {fault}")
        sys.exit(1)
    said = [f"{name}: {line}" for name, command in AFTER for line in compared(name, command)]
    say("what was compared:")
    for line in said:
        say(f"  {line}")
    print(lines[-1], flush=True)


if __name__ == "__main__":
    main()
