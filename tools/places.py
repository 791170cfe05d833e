#!/usr/bin/env python3
"""Counts the places that docs/DESIGN-PASS.md speaks of, in a checkout's sources.

    python3 tools/places.py            one line for each search: how many places it finds
    python3 tools/places.py --where    and where
"""

import pathlib
import re
import sys

# What is searched for, by the point of the page that it belongs to. A search goes over whole files, so that it can span lines.
SEARCHES = {
    "1 enums, flags, numbers for kinds": {
        "a case of an enum that only says there is none": r"^    (Unknown|Nothing|Dead|Absent),$",
        "a number for a kind, in a signature": r"\b(?:code|kind): u8\b",
        "a 0 for what is not there": r"^    blocks: Vec<u16>|if size == 0|self\.blocks\[i\] = 0",
        "an error put into another by hand": r"Err\(Stop::Fault\(",
        "a match of an Option or a Result that a method or ? says": r"None => (?:None|false|true|0|Cell::Dead|return|\{ if)|_ => None,\n    \}\n\}|\} else \{\n +None\n +\}|let Some\([^)]*\) = [^;]* else \{\n +return (?:None|Err)",
        "a case whose values lie beside it": r"more: usize|let \[[^\]]*rest @",
    },
    "2 twins": {
        "types": r"pub struct (?:Refusal|FaultAt) ",
        "printing of both": r"impl fmt::Display for (?:Refusal|FaultAt) ",
        "methods of both": r"pub fn (?:number|layer|record|reason|fault)\((?:&self|self)\)",
        "words of each kind of error": r"fn \w+_words\(",
        "operators by group, on numbers and on values": r"fn (?:connect|equate|order|compute)(?:_values)?\(",
        "one operation of numbers": r"fn (?:quotient|remainder|product|sum|difference|negation)\(",
        "a present reply read out of a buffer": r"self\.present\.(?:len|byte)\(",
        "rows that come to life and die": r"pub fn (?:enliven|kill)",
    },
    "3 loops": {
        "a for over a range": r"for \w+ in [^{\n]*\.\.[^{\n]*\{",
        "a while or a loop": r"^\s+(?:while|loop)\b",
    },
    "4 equality, order, copying, conversion, printing": {
        "equality": r"fn (?:same_byte|is_kind|is_dead|is)\(|let same = ",
        "conversion": r"fn (?:bit_of|code_of|holding|contents)\(",
        "a cast": r"\bas (?:u8|u16|usize|i64|char)\b(?! ==)",
        "printing": r"impl fmt::Display for|println!\(rt; \"(?:char|int|bool|pointer|none|fault|misfit)",
    },
    "5 facts and parameters that go together": {
        "a requires": r"^\s+requires ",
        "a table that keeps its length": r"vec_len \w+\.new ≡ vec_len \w+\.old",
        "code, left, right": r"\bcode: u8, left: \w+, right: \w+",
        "two links": r"left: &(?:mut )?X,\s+right: &(?:mut )?Y",
        "a table and a place in it": r"cells: &mut Vec<Cell>",
        "the table of a program": r"store: &mut Store,\s+shapes: &mut Shapes",
    },
    "6 buffers, parallel arrays, searches, arenas": {
        "a buffer with a length beside it": r"^    (?:len|held): usize,$",
        "a second array beside one": r"^    (?:sizes|blocks): Vec<",
        "an index that stands for a part": r"\b(?:element|first|rest): usize",
    },
    "7 which step to run": {
        "an arm for a number": r"^\s+(?:0x)?\d+(?:\.\.=\d+)? => ",
        "an arm for a word": r"^\s+Some\(\"\w+\"\) => ",
    },
}


def sources(root):
    return sorted(p for p in (root / "crates").rglob("*.rt") if "out" not in p.parts)


def main():
    root = pathlib.Path(__file__).resolve().parent.parent
    where = "--where" in sys.argv[1:]
    for point, searches in SEARCHES.items():
        print(point)
        for name, pattern in searches.items():
            found = []
            for path in sources(root):
                text = path.read_text(encoding="utf-8")
                for m in re.finditer(pattern, text, re.MULTILINE):
                    line = text.count("\n", 0, m.start()) + 1
                    found.append(f"{path.relative_to(root)}:{line}")
            print(f"  {len(found):3} {name}")
            if where:
                for place in found:
                    print(f"        {place}")
    proofs = [p for p in (root / "crates").rglob("*.antt") if "proofs" in p.parts and "out" not in p.parts]
    answers = [p for p in proofs if p.name in ("Answers.antt", "Invariants.antt")]
    lines = sum(len(p.read_text(encoding="utf-8").splitlines()) for p in proofs)
    print("8 proofs")
    print(f"  {len(answers):3} files of answers and invariants, of {len(proofs)} files of proofs with {lines} lines")


main()
