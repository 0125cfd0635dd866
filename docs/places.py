#!/usr/bin/env python3
"""python3 docs/places.py [FOLDER]: the places of docs/DESIGN-PASS.md in the sources of a copy of this repository, by point. With -v each place is named."""
import pathlib
import re
import sys

arguments = [a for a in sys.argv[1:] if a != "-v"]
named = "-v" in sys.argv
top = pathlib.Path(arguments[0] if arguments else ".")
sources = sorted(top.glob("crates/*/src/**/*.rt"))


FUNCTION = r'^ *(?:pub )?(?:extern "C" )?fn (\w+)(?:<[^(\n]*>)?\(((?:[^()]|\([^()]*\))*)\)[^{};]*?(?:\n *(?:requires|ensures)\b[^\n]*)*\s*\{\n'


def lines():
    for path in sources:
        for number, line in enumerate(path.read_text().splitlines(), 1):
            code = line.split("//")[0]
            if code.strip():
                yield f"{path.relative_to(top)}:{number}", code


def matching(pattern):
    return [f"{place}: {code.strip()}" for place, code in lines() if re.search(pattern, code)]


def functions():
    """Each function's place, name, parameters and body."""
    for path in sources:
        text = re.sub(r"//[^\n]*", "", path.read_text())
        for found in re.finditer(FUNCTION, text, re.M):
            end = re.search(r"^ {0,4}\}", text[found.end():], re.M)
            body = text[found.end(): found.end() + (end.start() if end else 0)]
            yield f"{path.relative_to(top)}: {found[1]}", found[1], re.sub(r"\s+", " ", found[2]), body


def enums():
    for path in sources:
        for found in re.finditer(r"^(?:pub )?enum (\w+) \{(.*?)^\}", path.read_text(), re.M | re.S):
            variants = [v.strip() for v in re.sub(r"//[^\n]*", "", found[2]).split(",\n") if v.strip()]
            yield f"{path.relative_to(top)}: {found[1]}", variants


def lent_together(wanted):
    return [place for place, _, parameters, _ in functions() if all(re.search(rf"\b{p}: &", parameters) for p in wanted)]


def equal_bodies():
    """Functions that are the same but for names, numbers and types."""
    seen = {}
    for place, name, parameters, body in functions():
        if body.count("\n") < 1:
            continue
        shape = re.sub(r"0x\w+|\d+\w*|\bu(8|16|32|64|size)\b|\b[a-z]\w*\b|'.'", "_", body)
        shape = re.sub(r"\s+", " ", shape)
        if len(shape) > 30:
            seen.setdefault(shape, []).append(place)
    return [", ".join(group) for group in seen.values() if len(group) > 1]


points = {
    "1 enums of a case with a value and one without, as Option": [
        place for place, variants in enums() if len(variants) == 2 and sum("(" in v for v in variants) == 1],
    "1 an enum whose first case is that nothing is wrong, as Result": [
        place for place, variants in enums() if variants and variants[0] == "Done"],
    "1 tests of an answer by a function, and numbers of answers": matching(r"\bis_done\(|\bnumber_of\("),
    "1 bytes and numbers for kinds": matching(r"b'[A-Z]'|\b(kind|memory): u(8|32)\b|== b'"),
    "2 functions alike but for names, numbers and types": equal_bodies(),
    "3 loops by hand": matching(r"^ *(while|loop)\b"),
    "4 casts that a From says": matching(r"\bas (u64|usize)\b|\((\w+) as u32\)|\bas u32\b"),
    "4 types that derive Clone and Copy alone": [
        f"{path.relative_to(top)}: {found[1]}" for path in sources
        for found in re.finditer(r"#\[derive\(Clone, Copy\)\]\n(?:pub )?(?:struct|enum) (\w+)", path.read_text())],
    "5 functions lent both memories": lent_together(["rom", "data"]),
    "5 functions lent both memories and the input": lent_together(["rom", "data", "input"]),
    "5 functions given bytes and a place in them": [
        place for place, _, parameters, _ in functions() if re.search(r"bytes: &mut \[u8\], at: usize", parameters)],
    "5 a copy of a struct with one field changed": matching(r"^ *let mut n = m;"),
    "6 a size beside a buffer": matching(r"&\[u8; \d+\], \w*count: usize"),
    "7 tests of a kind one after another": matching(r"if \w+(\.\w+)? == b'"),
}
for point, places in points.items():
    print(f"{len(places):4}  {point}")
    if named:
        for place in places:
            print(f"        {place}")
