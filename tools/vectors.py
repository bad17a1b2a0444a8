#!/usr/bin/env python3
"""vectors.py FILE COUNT COMMAND..: runs recorded cases through the program.

FILE has COUNT cases. Each line of FILE is a JSON object: `input`, the case in hex, goes to COMMAND's standard input, and what it writes must be
`expect` and a newline. The first case runs by itself, since it may build what the others run, and these as many at a time as
there are processors. Prints how many cases passed, or the cases that did not, and then fails.
"""
import json
import os
import subprocess
import sys
from concurrent.futures import ThreadPoolExecutor

SHOWN = 10


def cases(name):
    with open(name, encoding="utf-8") as lines:
        for line in lines:
            if line.strip():
                yield json.loads(line)


def written(command, case):
    """What the command writes for a case, and its status."""
    run = subprocess.run(command, input=bytes.fromhex(case["input"]), stdout=subprocess.PIPE, check=False)
    return run.stdout, run.returncode


def all_written(command, given):
    """What it writes for each of the cases, in their order."""
    first = [written(command, case) for case in given[:1]]
    with ThreadPoolExecutor(max_workers=os.cpu_count()) as pool:
        return first + list(pool.map(lambda case: written(command, case), given[1:]))


def main():
    if len(sys.argv) < 4 or not sys.argv[2].isdecimal():
        sys.exit(__doc__)
    name, count, command = sys.argv[1], int(sys.argv[2]), sys.argv[3:]
    passed, failed = 0, []
    given = list(cases(name))
    for number, (case, (got, status)) in enumerate(zip(given, all_written(command, given)), 1):
        wanted = case["expect"].encode() + b"\n"
        if status == 0 and got == wanted:
            passed += 1
        else:
            failed.append((number, wanted, got, status))
    for number, wanted, got, status in failed[:SHOWN]:
        print(f"{name}: case {number}: expected {wanted!r}, got {got!r}, status {status}", file=sys.stderr)
    print(f"compared: {passed} of {passed + len(failed)} cases of {name}, by {' '.join(command)}")
    if failed or passed != count or count == 0:
        sys.exit(f"vectors: {passed} cases passed, and {count} have to")


main()
