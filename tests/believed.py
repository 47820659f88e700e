#!/usr/bin/env python3
"""The definitions that a reader has to believe: those of specs/ that the contracts of public calls, or the statements of the
theorems below, reach. README.md lists them file by file between two marks; the list there has to be the one found here.

usage: tests/believed.py           compare, and say what differs
       tests/believed.py --write   write the list into README.md
"""

import pathlib
import re
import sys

ROOT = pathlib.Path(__file__).resolve().parents[1]
README = ROOT / "README.md"
MARKS = ("<!-- believed: begin -->", "<!-- believed: end -->")

# Crates whose functions ask something of their callers: their contracts promise nothing to a user.
INNER = {"row_core", "stepping", "in_place", "slots", "buffers", "record_words", "job_printer", "job_parser"}

# What the theorems say that no contract cites: crate, and the definition that a statement is made of.
THEOREMS = [
    ("kernel", "Weights"), ("kernel", "Sound"), ("kernel", "RatioOfTwo"), ("averaging", "Distance"), ("averaging", "Entrywise"), ("averaging", "exact_of"),
    ("averaging", "brightness"), ("averaging", "BrightSpots"), ("covariance", "WithinHalfUnit"), ("covariance", "along_x"), ("covariance", "along_y"),
    ("covariance", "covariance_number"), ("covariance", "covariance_values"), ("differences", "CloseTo"),
    ("differences", "units_per_step"), ("differences", "IsWhole"), ("differences", "turned_by"), ("job_printer", "GreatestDivisor"),
    ("job_parser", "IsText"), ("machine", "Demand3"), ("machine", "Workable"), ("machine", "Demand3InNumbers"), ("machine", "CallsInNumbers"),
    ("machine", "ElevenExactly"), ("machine", "TickEnhancesNone"), ("machine", "Collected"), ("machine", "job_collected"),
    ("machine", "picture_collected"), ("word_calls", "ExportedDemand3"),
]

WORD = re.compile(r"[^\s(){};,.λ→]+")


def crates():
    lines = [line.split("#")[0].strip() for line in (ROOT / "crates.txt").read_text().splitlines()]
    return [line.split(":")[0].split()[0] for line in lines if line]


def code_of(text):
    return "\n".join(line for line in text.splitlines() if not line.lstrip().startswith("--"))


def definitions(text):
    """{name: its lines} of a file of specs/: a block begins at the margin, and clauses go with the name that they begin with."""
    blocks, found = [], {}
    for line in code_of(text).splitlines():
        if line and not line[0].isspace():
            blocks.append([line])
        elif blocks and line.strip():
            blocks[-1].append(line)
    name = None
    for block in blocks:
        first = block[0]
        if re.match(r"(use|(pub )?mod|infix\w*|syntax) ", first):
            continue
        head = re.match(r"(?:abbrev |unfoldable )?(?:pub )?(?:(?:record|data) )?(\S+)", first)
        if re.match(r"(abbrev|unfoldable|pub|record|data) ", first):
            name = head[1]
        if name:
            found.setdefault(name, []).extend(block)
    return found


def imported(text):
    """{name as written: (crate, file, name)} of what a file takes from specs/."""
    names = {}
    for module, listed in re.findall(r"(?m)^(?:ghost )?use (\S+?)\.\{([^}]*)\}", text):
        match = re.fullmatch(r"Rattle\.(\w+)\.specs\.([\w.]+)", module)
        if match:
            for item in listed.split(","):
                parts = item.strip().split(" as ")
                names[parts[-1]] = (match[1], match[2], parts[0])
    return names


def words(text):
    return set(WORD.findall(text))


def mentions(name, seen):
    return name in seen or (name.startswith("◌") and name.strip("◌") in seen)


class Specs:
    def __init__(self):
        self.lines, self.graph = {}, {}
        for crate in crates():
            for path in sorted((ROOT / "crates" / crate / "specs").glob("*.antt")):
                text = path.read_text()
                scope = imported(text)
                mine = definitions(text)
                scope.update({name: (crate, path.stem, name) for name in mine})
                for name, block in mine.items():
                    seen = words("\n".join(block))
                    self.lines[crate, path.stem, name] = len(block)
                    self.graph[crate, path.stem, name] = {place for word, place in scope.items() if mentions(word, seen) and place != (crate, path.stem, name)}

    def reached(self, roots):
        seen, todo = set(), list(roots)
        while todo:
            place = todo.pop()
            if place in self.lines and place not in seen:
                seen.add(place)
                todo += self.graph[place]
        return seen


def contract_roots():
    """What the contracts of public functions name."""
    roots = set()
    for crate in crates():
        if crate in INNER:
            continue
        for path in sorted((ROOT / "crates" / crate / "src").glob("*.rt")):
            text = re.sub(r"//[^\n]*", "", path.read_text())
            scope = imported(text)
            heads = list(re.finditer(r'(?m)^ *(pub )?(?:extern "C" )?fn \w+', text))
            for head, after in zip(heads, heads[1:] + [None]):
                part = text[head.start():after.start() if after else len(text)]
                if head[1]:
                    seen = words(" ".join(re.findall(r"ensures[^{]*(\{(?:[^{}]|\{[^{}]*\})*\})", part)))
                    roots |= {place for word, place in scope.items() if mentions(word, seen)}
    return roots


def listing():
    specs = Specs()
    theorems = {place for place in specs.lines if (place[0], place[2]) in THEOREMS}
    gone = set(THEOREMS) - {(crate, name) for crate, _, name in theorems}
    if gone:
        sys.exit(f"believed: no definition {sorted(gone)}")
    believed = specs.reached(contract_roots() | theorems)
    rows, lines = [], 0
    for crate in crates():
        for path in sorted((ROOT / "crates" / crate / "specs").glob("*.antt")):
            names = [place for place in specs.lines if place[:2] == (crate, path.stem) and place in believed]
            if names:
                count = sum(specs.lines[place] for place in names)
                lines += count
                rows.append(f"| `{crate}/specs/{path.stem}.antt` | {count} | {', '.join(f'`{place[2]}`' for place in names)} |")
    head = [f"{len(believed)} definitions, {lines} lines without imports, comments and blank lines:", "", "| file below `crates/` | lines | definitions |", "|---|---|---|"]
    return "\n".join(head + rows)


def main():
    text = README.read_text()
    before, rest = text.split(MARKS[0])
    inside, after = rest.split(MARKS[1])
    found = f"\n\n{listing()}\n\n"
    if sys.argv[1:] == ["--write"]:
        README.write_text(before + MARKS[0] + found + MARKS[1] + after)
        return 0
    if inside != found:
        old, new = set(inside.splitlines()), set(found.splitlines())
        for line in sorted(old - new) + sorted(new - old):
            print(f"believed: {'only in README.md' if line in old else 'not in README.md'}: {line[:200]}")
        return 1
    print(found.split("\n")[2])
    return 0


if __name__ == "__main__":
    sys.exit(main())
