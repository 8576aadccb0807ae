#!/usr/bin/env python3
"""names.py TOP: writes the definitions, fields and lemmas of this repository in today's spelling, by the rows of names.tsv beside it.

A row is a crate or '*', the old name, the new name. Whole words turn, comments too, in specs/ and proofs/, in src/ (outside
strings) and in must-fail/. Functions of src/ keep their names: no row names one. It stops before writing anything where a new
name already stood in a file that would get it, unless the row's last column says 'shared': then the two are told apart by
their places (a function of src/ and the definition that it is proved to compute). A second run changes nothing but the rows
of one crate, so run it once."""
import pathlib
import re
import sys

WORD = re.compile(r"[^\s(){}.;,@\"«»\[\]\\]+")
top = pathlib.Path(sys.argv[1])
rows = []
for line in (pathlib.Path(__file__).parent / "names.tsv").read_text().split("\n"):
    if line and not line.startswith("#"):
        rows.append((line.split("\t") + [""])[:4])


def turned(text, table):
    return WORD.sub(lambda m: table.get(m.group(0), m.group(0)), text)


def pieces(path, text):
    """The parts of a file, each with whether it turns: strings stay."""
    at = 0
    for m in re.finditer(r'"(?:[^"\\\n]|\\.)*"', text) if path.suffix != ".edit" else ():
        yield text[at : m.start()], True
        yield m.group(0), False
        at = m.end()
    yield text[at:], True


changes = []
for crate in sorted(p for p in (top / "crates").iterdir() if p.is_dir()):
    table = {o: n for c, o, n, _ in rows if c in ("*", crate.name)}
    for c, o, n, _ in rows:
        if c == crate.name:
            table[o] = n
    shared = {n for c, o, n, s in rows if s == "shared"}
    given = {}
    for part, glob in (("specs", "**/*.antt"), ("proofs", "**/*.antt"), ("src", "**/*.rt"), ("must-fail", "*.edit")):
        for path in sorted((crate / part).glob(glob)):
            old = path.read_text()
            words = set(WORD.findall(old))
            for o, n in table.items():
                if o in words and n in words and n not in table and n not in shared:
                    sys.exit(f"{path}: {o} would meet {n}")
                if o in words:
                    given.setdefault(n, set()).add(o)
            new = "".join(turned(t, table) if turns else t for t, turns in pieces(path, old))
            if new != old:
                changes.append((path, new))
    for n, olds in given.items():
        if len(olds) > 1:
            sys.exit(f"{crate.name}: {', '.join(sorted(olds))} would all become {n}")
for path, text in changes:
    path.write_text(text)
    print("turned", path)
