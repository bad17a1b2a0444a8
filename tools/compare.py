#!/usr/bin/env python3
"""./crabuledda compare [--cases N] [--edges E] [--random R] [--seed S] [--crate FOLDER]: the archive against the Rust.

Random and edge cases go through the proved archive, the plain Rust copy of oracle/, and the crate itself where its files
are at hand: in ../shared/docs/src, or in FOLDER. Answers, outputs and a digest of every lent word are compared, after
refusals too. Prints how many cases each pair compared, the smallest case that differs where one does, and at the end the
sides that were compared. It fails where a side panics, skips what it can be asked or is missing, and where fewer cases are
made, answered or compared than asked for.
"""
import argparse
import subprocess
import sys
import time
from pathlib import Path

TOP = Path(__file__).resolve().parent.parent
ORACLE = TOP / "target" / "oracle" / "compare-oracle"
PLACE = TOP / "target" / "compare"
CRATE = TOP / ".." / "shared" / "docs" / "src"
SLOW = 2000  # cases from which progress is shown


def answers(name, command, cases, progress):
    """Answers every case by a command that takes cases and gives answers, a line each; hands back NAME=FILE."""
    kept = PLACE / f"{name}.answers"
    began, shown = time.monotonic(), time.monotonic()
    with open(PLACE / "cases") as given, open(kept, "w") as file:
        process = subprocess.Popen(command, stdin=given, stdout=subprocess.PIPE, text=True)
        done = 0
        for done, line in enumerate(process.stdout, 1):
            file.write(line)
            if progress and time.monotonic() - shown > 5:
                shown = time.monotonic()
                print(f"compare: {name}, {done} of {cases} cases, {int(shown - began)} s", file=sys.stderr, flush=True)
        if process.wait() != 0:
            sys.exit(f"compare: {name} ended with status {process.returncode}")
        if done != cases:
            sys.exit(f"compare: {name} answered {done} of {cases} cases")
    return f"{name}={kept}"


def made_cases(chosen):
    """Makes the cases; hands back how many they are, which is what was asked for."""
    words = ["--cases", str(chosen.cases), "--edges", str(chosen.edges), "--seed", str(chosen.seed)]
    text = subprocess.run([ORACLE, "generate", *words], check=True, stdout=subprocess.PIPE, text=True).stdout
    made = len(text.splitlines())
    if made != chosen.cases or made == 0:
        sys.exit(f"compare: {made} cases were made, and {chosen.cases} are asked for")
    (PLACE / "cases").write_text(text)
    return made


def sides_built(folder):
    """The sides of the oracle: the plain copy, and the crate where its folder is there."""
    sides = subprocess.run([ORACLE, "sides"], check=True, stdout=subprocess.PIPE, text=True).stdout.split()
    wanted = ["plain"] + ["crate"] * folder.is_dir()
    if sides != wanted:
        sys.exit(f"compare: the oracle has the sides {sides}, and {wanted} are to be compared")
    return sides


def main():
    parser = argparse.ArgumentParser(prog="./crabuledda compare", description=__doc__.split("\n\n")[1])
    parser.add_argument("--cases", type=int, default=20000, metavar="N", help="how many cases (default 20000)")
    parser.add_argument("--edges", type=int, metavar="E", help="how many of them are edge cases at most (default all edge cases)")
    parser.add_argument("--random", type=int, default=0, metavar="R", help="how many random cases have to be compared (default 0)")
    parser.add_argument("--seed", type=int, default=1, metavar="S", help="what the random cases are made from (default 1)")
    parser.add_argument("--crate", metavar="FOLDER", help="where the crate's files are (default ../shared/docs/src)")
    chosen = parser.parse_args()
    chosen.edges = chosen.cases if chosen.edges is None else chosen.edges
    folder = Path(chosen.crate).resolve() if chosen.crate else CRATE
    subprocess.run([TOP / "oracle" / "build", *([folder] if chosen.crate else [])], check=True, stdout=sys.stderr)
    subprocess.run([TOP / "host" / "build"], check=True)
    PLACE.mkdir(parents=True, exist_ok=True)
    sides = sides_built(folder)
    cases = made_cases(chosen)
    commands = {"archive": [TOP / "host" / "build", "--run", "answer"]}
    commands |= {side: [ORACLE, "answer", side] for side in sides}
    files = [answers(name, command, cases, cases >= SLOW) for name, command in commands.items()]
    wanted = ["--edges", str(chosen.edges), "--random", str(chosen.random)]
    status = subprocess.run([ORACLE, "compare", *wanted, PLACE / "cases", *files]).returncode
    if status != 0:
        sys.exit(status)
    absent = "" if "crate" in sides else "; NOT the crate: its files are not in ../shared/docs/src"
    print(f"compared: {', '.join(commands)} on {cases} cases{absent}")


if __name__ == "__main__":
    try:
        main()
    except subprocess.CalledProcessError as wrong:
        sys.exit(f"compare: {Path(wrong.cmd[0]).parent.name}/{Path(wrong.cmd[0]).name} ended with status {wrong.returncode}")
