#!/usr/bin/env python3
"""Lists the places of src/ that docs/DESIGN-PASS.md counts, point by point.

usage: python3 tools/places.py [--totals]     at the top of the repository

Each line is `point file:line: text`. The rules below say what counts as a place.
"""

import glob
import re
import sys

NUMBER = r"[us](?:8|16|32|64|ize)"
HEAD = re.compile(r"^( *)(?:pub(?:\([a-z]+\))? )?(?:extern \"C\" )?fn (\w+)", re.M)
# Point 4: functions that convert, compare, copy or print by hand.
BY_HAND = set("""as_bit wide low_byte word_value word_bytes joined low_half high_half byte power_up
    no_findings unsound sp_register dp_register of_kind fields_of record_by decoded sp_decoded
    dp_decoded encoded sp_encoded dp_encoded handed verdict_code hex_digit decimal_digit put_hex8
    put_hex put_leading put_decimal put_reason digit digits show show_flag lesser minus""".split())


# Point 5: parameters that travel together.
TOGETHER = [("rdram", "dmem", "imem"), ("rdram", "dmem"), ("out", "at"), ("spbudget", "dpbudget"),
    ("compared", "differed"), ("index", "place")]


class Function:
    """A function's name and line, its parameters, result, clauses and body."""

    def __init__(self, path, text, m):
        i, depth = m.end(), 0
        while not (text[i] == ")" and depth == 1):
            depth += {"(": 1, ")": -1}.get(text[i], 0)
            i += 1
        # A body on the line of its head, or after its clauses.
        head_end = text.index("\n", i)
        if text[head_end - 1] == "{":
            start = head_end
        else:
            start = re.compile(rf"^{m[1]}\{{$", re.M).search(text, i).end()
        end = re.compile(rf"^{m[1]}\}}$", re.M).search(text, start)
        self.name, self.where = m[2], f"{path}:{text.count(chr(10), 0, m.start()) + 1}"
        self.params = re.findall(r"(\w+): ((?:&'?\w* ?(?:mut )?)?[\[\w][^,)]*)", text[m.end():i])
        line = text[i:head_end]
        self.result = line.split("->", 1)[1].strip(" {") if "->" in line else ""
        self.clauses = text[head_end:start]
        self.body = text[start:end.start()]
        self.text = text[m.end():i] + line + self.body

    def shape(self):
        """The function without numbers, widths, names of engines and comments."""
        text = re.sub(r"//.*", "", self.text)
        text = re.sub(r"\b0x[0-9A-Fa-f]+\b|\b\d+\b", "N", text)
        text = re.sub(rf"\b{NUMBER}\b", "U", text)
        return re.sub(r"\s+|(?:sp|dp|Sp|Dp)_?", "", text)


def lines_of(path, text):
    """Places that one line shows."""
    enum = ""
    for n, line in enumerate(text.split("\n"), 1):
        code, where = line.split("//")[0], f"{path}:{n}"
        declared = re.match(r"(?:pub )?enum (\w+)", code)
        enum = declared[1] if declared else enum
        # A variant for nothing or for a failure, a number of a refusal or a kind, a flag with a
        # value beside it.
        error = re.search(r"Error$|Refusal$", enum)
        if re.match(r"    (None|Misaligned|Unmapped),$", code) and not error:
            yield 1, where, "variant" + code
        if re.match(r"    pub (number|kind|memory): u\d+,", code):
            yield 1, where, "number" + code
        if re.match(r"    pub (failed|compared|differed|full|(start|end)pending): (bool|u8),", code):
            yield 1, where, "flag" + code
        if re.search(r"\bwhile \(?[\w.]+ < ", code):
            yield 3, where, code.strip()
        if re.search(r"\[\w+; ?\w+\]", code) and "fn " not in code:
            yield 6, where, code.strip()


def function_places(f):
    coded = [p for p, t in f.params if p in ("number", "kind", "letter", "later") and re.match(NUMBER, t)]
    if re.search(r"refusal|number|^check$|^before$|code$", f.name) and re.match(NUMBER, f.result):
        coded.append("result")
    if coded:
        yield 1, f.where, f"fn {f.name}: " + ", ".join(coded)
    if f.name in BY_HAND:
        yield 4, f.where, f"fn {f.name}"
    for p, t in f.params:
        if t == "bool" and re.search(rf"\bif !?{p}\b", f.body):
            yield 7, f.where, f"fn {f.name} by {p}"


def group(found, key, at):
    found.setdefault(key, []).append(at)


def main():
    places, names, shapes, types, together, facts = [], {}, {}, {}, {}, {}
    for path in sorted(glob.glob("crates/*/src/**/*.rt", recursive=True)):
        text = open(path).read()
        places += lines_of(path, text)
        for f in (Function(path, text, m) for m in HEAD.finditer(text)):
            places += function_places(f)
            group(names, f.name, f.where)
            if len(f.body.split()) > 3:
                group(shapes, f.shape(), f"{f.name} {f.where}")
            given = {p for p, _ in f.params}
            for names_of in TOGETHER:
                if given >= set(names_of):
                    group(together, names_of, f.where)
            for fact in set(re.findall(r"\{ (\w+ \w+)\.now\s+→", f.clauses)):
                group(facts, fact, f.where)
        for m in re.finditer(r"pub struct (\w+)[^{;]*\{([^}]*)\}", text):
            fields = re.sub(r"//.*", "", m[2])
            fields = re.sub(r"\s+", "", re.sub(r"(?:Sp|Dp)\w*", "E", fields))
            group(types, fields, f"{m[1]} {path}:{text.count(chr(10), 0, m.start()) + 1}")
    for name, at in names.items():
        if len(at) > 1 and name not in ("main", "new", "from", "fmt"):
            places.append((2, at[0], f"name {name}, also {', '.join(at[1:])}"))
    for kind, found in (("shape", shapes), ("type", types)):
        for at in found.values():
            if len(at) > 1:
                places.append((2, at[0].split()[1], f"{kind}: {', '.join(at)}"))
    for kind, found in (("together", together), ("fact", facts)):
        for key, at in found.items():
            if len(at) > 2:
                key = key if kind == "fact" else " ".join(key)
                places.append((5, at[0], f"{kind}: {key} in {len(at)} functions"))
    places.sort()
    if "--totals" not in sys.argv:
        for point, where, text in places:
            print(f"{point} {where}: {text}")
    counts = [(p, sum(q[0] == p for q in places)) for p in range(1, 8)]
    print("; ".join(f"point {p}: {n}" for p, n in counts))


main()
