#!/usr/bin/env python3
"""Holds docs/PROMISES.md against the source.

Every `pub fn` of every crate stands in its table with the record that its `ensures` cites, the theorem that two outcomes
which meet the record are equal, and the wrong versions that were tried against it, one at least. No `pub fn` has a `requires`.
A row whose function, record, theorem or edit is gone is an error, and so is an edit that no row names. So is a file of specs/ or
proofs/ that the page's other tables cite and that is gone, and a name cited behind one that no such file declares.
"""
import re
import sys
from pathlib import Path

TOP = Path(__file__).resolve().parent.parent
TABLE = TOP / "docs" / "PROMISES.md"
ROW = re.compile(r"^\| `(?P<function>[\w:]+)` \| `(?P<promise>\w+)` \| `(?P<settled>[\w-]+)` \| (?P<wrong>.*) \|$")
FUNCTION = re.compile(r'^(?P<indent> *)pub (?:const )?(?:extern "C" )?fn (?P<name>\w+)')
CITED = re.compile(r"^\s*ensures\*? (?:\w+ )?\{ (\w+)", re.M)
SPAN = re.compile(r"`([^`]+)`")
PLACE = re.compile(r"(?:(?P<crate>\w+)/)?(?P<part>(?:specs|proofs)/\w+)")
DECLARED = re.compile(r"^ *(?:(?:pub|abbrev|unfoldable|record|data) )*([\w'-]+) [:({]", re.M)


def opens_body(line):
    """The line, of a function's head, is the one that its body opens on: in the formatter's layout a clause opens on its own."""
    return line.endswith("{") and not line.strip().startswith(("requires", "ensures"))


def public_functions(crate):
    """Yields (path, contract) for each `pub fn`: its name with the crate and the type, and the text between signature and body."""
    for source in sorted((crate / "src").rglob("*.rt")):
        inside = None
        lines = source.read_text(encoding="utf-8").split("\n")
        for number, line in enumerate(lines):
            opened = re.match(r"^impl(?:<.*?>)? (?:.* for )?(\w+)", line)
            if opened:
                inside = opened[1]
            elif line == "}":
                inside = None
            found = FUNCTION.match(line)
            if not found:
                continue
            text, at = [line], number
            while not opens_body(lines[at]):
                at += 1
                text.append(lines[at])
            parts = [crate.name] + ([inside] if inside and found["indent"] else []) + [found["name"]]
            yield "::".join(parts), "\n".join(text)


def antt(folder):
    return "\n".join(path.read_text(encoding="utf-8") for path in sorted(folder.rglob("*.antt")))


def check_function(name, contract, row, crate, faults):
    """The row of one function: its record, its theorem and its wrong versions are there."""
    if re.search(r"^\s*requires", contract, re.M):
        faults.append(f"{name}: a public function has a `requires`")
    cited = CITED.findall(contract)
    if cited != [row["promise"]]:
        faults.append(f"{name}: its `ensures` cites {', '.join(cited) or 'no record'}, the list says {row['promise']}")
    if not re.search(rf"^pub record {row['promise']} ", antt(crate / "specs"), re.M):
        faults.append(f"{name}: {crate.name}/specs has no record {row['promise']}")
    theorem = re.search(rf"^pub {re.escape(row['settled'])} :(.*?)^{re.escape(row['settled'])} ", antt(crate / "proofs"), re.M | re.S)
    if not theorem:
        faults.append(f"{name}: {crate.name}/proofs has no theorem {row['settled']}")
    elif theorem[1].count(row["promise"]) < 2:
        faults.append(f"{name}: {row['settled']} does not speak of two outcomes of {row['promise']}")
    wrong = re.findall(r"`([\w:]+)`", row["wrong"])
    if not wrong:
        faults.append(f"{name}: no wrong version")
    for label in wrong:
        home, edit = label.split("::") if "::" in label else (crate.name, label)
        if not (TOP / "crates" / home / "must-fail" / f"{edit}.edit").is_file():
            faults.append(f"{name}: no wrong version {home}/must-fail/{edit}.edit")


def check_cited(table, faults):
    """Each file that the page cites is there, and the names behind it in its cell are declared in specs/ or proofs/ of some crate."""
    declared = set()
    for crate in (TOP / "crates").iterdir():
        declared |= {name for part in ("specs", "proofs") for name in DECLARED.findall(antt(crate / part))}
    for cells in (line.split(" | ") for line in table.split("\n") if line.startswith("| ") and not ROW.match(line)):
        crate = SPAN.match(cells[0].removeprefix("| "))
        for cell in cells:
            cites = False
            for span in SPAN.findall(cell):
                place = PLACE.fullmatch(span)
                if place:
                    home = place["crate"] or (crate and crate[1]) or ""
                    cites = True
                    if not (TOP / "crates" / home / f"{place['part']}.antt").is_file():
                        faults.append(f"docs/PROMISES.md: no file crates/{home}/{place['part']}.antt")
                elif cites and re.fullmatch(r"[\w'-]+", span) and span not in declared and not (TOP / "crates" / span).is_dir():
                    faults.append(f"docs/PROMISES.md: nothing declares {span}")


def main():
    faults, functions = [], {}
    crates = sorted(path for path in (TOP / "crates").iterdir() if (path / "src" / "lib.rt").is_file())
    for crate in crates:
        for name, contract in public_functions(crate):
            functions[name] = (crate, contract)
    table = TABLE.read_text(encoding="utf-8")
    rows = {}
    for line in table.split("\n"):
        found = ROW.match(line)
        if found:
            if found["function"] in rows:
                faults.append(f"{found['function']}: listed twice")
            rows[found["function"]] = found
    for name, (crate, contract) in functions.items():
        if name in rows:
            check_function(name, contract, rows[name], crate, faults)
        else:
            faults.append(f"{name}: not listed in docs/PROMISES.md")
    for name in rows:
        if name not in functions:
            faults.append(f"{name}: listed, but there is no such public function")
    for edit in sorted((TOP / "crates").glob("*/must-fail/*.edit")):
        if f"`{edit.stem}`" not in table and f"::{edit.stem}`" not in table:
            faults.append(f"{edit.parent.parent.name}: the wrong version {edit.stem} stands in no row of docs/PROMISES.md")
    check_cited(table, faults)
    for fault in faults:
        print(f"promises: {fault}")
    print(f"promises: {len(functions)} public functions, {len(rows)} rows, {len(faults)} faults")
    sys.exit(1 if faults else 0)


if __name__ == "__main__":
    main()
