#!/usr/bin/env python3
"""./crabuledda hash SALT [options]: the password on standard input, the tag in hex on standard output.

Flags and defaults are those of the `argon2` command that people know. A refusal prints its number and what it means on
standard error, with status 1; a word that is not understood has status 2.
"""
import argparse
import re
import subprocess
import sys
from pathlib import Path

TOP = Path(__file__).resolve().parent.parent
ALGORITHMS = {"d": 0, "i": 1, "id": 2}
VERSIONS = {"10": 16, "13": 19}
MEANING = re.compile(r"= (?P<number>\d+),? +/\* (?P<text>.*) \*/")


def number(text):
    value = int(text, 10)
    if not 0 <= value < 2**32:
        raise argparse.ArgumentTypeError("a number from 0 to 2^32-1 is wanted")
    return value


def exponent(text):
    value = number(text)
    if value > 31:
        raise argparse.ArgumentTypeError("-m is the log2 of KiB, 0 to 31")
    return 2**value


def hexadecimal(text):
    return bytes.fromhex(text).hex() or "-"


def options():
    parser = argparse.ArgumentParser(
        prog="./crabuledda hash", allow_abbrev=False, description="Derives a key with Argon2. The password is read from standard input, to its end."
    )
    parser.add_argument("salt", metavar="SALT", help="the salt, 8 bytes or more")
    for name in ALGORITHMS:
        parser.add_argument(f"-{name}", dest="algorithm", action="store_const", const=name, help=f"Argon2{name}" + (" (default)" if name == "i" else ""))
    parser.add_argument("-t", dest="passes", type=number, default=3, metavar="N", help="passes (default 3)")
    memory = parser.add_mutually_exclusive_group()
    memory.add_argument("-m", dest="memory", type=exponent, metavar="N", help="memory, 2^N KiB (default 12)")
    memory.add_argument("-k", dest="memory", type=number, metavar="N", help="memory, N KiB")
    parser.add_argument("-p", dest="lanes", type=number, default=1, metavar="N", help="lanes (default 1)")
    parser.add_argument("-l", dest="length", type=number, default=32, metavar="N", help="bytes of the tag (default 32)")
    parser.add_argument("-v", dest="version", choices=VERSIONS, default="13", help="version (default 13)")
    parser.add_argument("--secret", type=hexadecimal, default="", metavar="HEX", help="the secret")
    parser.add_argument("--data", type=hexadecimal, default="", metavar="HEX", help="the associated data, 32 bytes at most")
    return parser


def meaning(answer):
    """What a refusal means, in the header's words."""
    for line in (TOP / "host" / "crabuledda.h").read_text().split("\n"):
        found = MEANING.search(line)
        if found and found["number"] == answer:
            return found["text"]
    return "no such answer"


def main():
    chosen = options().parse_args()
    memory = 2**12 if chosen.memory is None else chosen.memory
    words = [ALGORITHMS[chosen.algorithm or "i"], VERSIONS[chosen.version], memory]
    words += [chosen.passes, chosen.lanes, chosen.length, chosen.salt.encode().hex() or "-", chosen.secret, chosen.data]
    done = subprocess.run([TOP / "host" / "build", "--run", "derive", *map(str, words)], stdout=subprocess.PIPE, text=True)
    if done.returncode == 1 and done.stdout.startswith("refused "):
        answer = done.stdout.split()[1]
        print(f"refused {answer}: {meaning(answer)}", file=sys.stderr)
    else:
        sys.stdout.write(done.stdout)
    sys.exit(done.returncode)


if __name__ == "__main__":
    main()
