"""Brings the names of this repository's own definitions and lemmas from kebab-case to snake_case.

Run once, at the top, after port.py. What is renamed: each name with a dash that a file of specs/ or
proofs/ defines (a definition, lemma, record, field, constructor, local name or bound variable). Not
renamed: names of goals, invariants and measures, which Rattle makes from the source, and names of the
library. Words in strings, comments and data stay. It prints names that fall together.
"""

import collections
import os
import re
import sys

WORD = r"[A-Za-z_][\w'′]*(?:-[\w'′]+)+"
NAME = re.compile(r"(?<![\w'′◌.-])(" + WORD + r")(?![\w'′-])")
ANY = re.compile(r"(?<![\w'′◌-])(" + WORD + r")(?![\w'′-])")
SNAKE = re.compile(r"[A-Za-z_][\w']*")


def files(top, ending):
    for folder, _, names in os.walk(top):
        if folder.endswith("/out") or "/out/" in folder:
            continue
        for name in sorted(names):
            if name.endswith(ending):
                yield os.path.join(folder, name)


def without_comments(text):
    return re.sub(r"--[^\n]*", "", text)


# A name that would fall together with one of the library's in the same file.
OTHERWISE = {"bit-or": "bit_of_or"}


def library_names():
    """The names with a dash that files here take from the library."""
    found = set()
    for path in files("crates", ".antt"):
        text = without_comments(open(path, encoding="utf-8").read())
        for m in re.finditer(r"^\s*(?:pub )?use (?:Rattle\.std|Prim|native|mathlib|lib)\b[^{\n]*\{([^}]*)\}", text, re.M):
            found.update(NAME.findall(m.group(1)))
    return found


def own_names():
    """The names with a dash that this repository defines, and where."""
    own = collections.defaultdict(set)
    head = re.compile(r"^\s*(?:(?:abbrev|unfoldable|pub|record|data|ruleset|mutual) )*(" + WORD + r")\s*(?:[:({]|$)(.*)", re.M)
    for path in files("crates", ".antt"):
        text = without_comments(open(path, encoding="utf-8").read())
        for m in head.finditer(text):
            line = text[m.start():text.find("\n", m.end() - 1) if text.find("\n", m.end() - 1) >= 0 else len(text)]
            if re.search(r":\s*(?:goal|goals|given|needs?|Given|Goals)\.", line):
                continue
            own[m.group(1)].add(path)
        for m in re.finditer(r"\blet (" + WORD + r")\b", text):
            own[m.group(1)].add(path)
        for m in re.finditer(r"λ ([^.]*)\.", text):
            for n in NAME.findall(m.group(1)):
                own[n].add(path)
        for m in re.finditer(r"[({]((?:[A-Za-z_][\w'′-]* )+):", text):
            for n in NAME.findall(m.group(1)):
                own[n].add(path)
    return own


def outside_strings(text, ghost):
    """Pieces of Rattle source: (is it code, piece)."""
    pattern = re.compile(r'//[^\n]*|b?"(?:\\.|[^"\\])*"|b?\'(?:\\.|[^\'\\])\'', re.S)
    at = 0
    for m in pattern.finditer(text):
        yield True, text[at:m.start()]
        yield False, m.group(0)
        at = m.end()
    yield True, text[at:]


def main():
    own = own_names()
    library = library_names()
    shared = sorted(n for n in own if n in library)
    for n in shared:
        print("left, also a name of the library:", n, sorted(own[n])[0])
        del own[n]
    turn = {n: OTHERWISE.get(n, n.replace("-", "_").replace("′", "'")) for n in own}
    together = collections.defaultdict(set)
    for old, new in turn.items():
        together[new].add(old)
    snake = collections.defaultdict(set)
    for path in list(files("crates", ".antt")) + list(files("crates", ".rt")):
        text = open(path, encoding="utf-8").read()
        for n in SNAKE.findall(without_comments(text)):
            snake[n].add(path)
    for new, olds in sorted(together.items()):
        if len(olds) > 1:
            print("fall together:", new, sorted(olds))
        if new in snake:
            print("already a name:", new, "from", sorted(olds), sorted(own[sorted(olds)[0]])[0], "in", sorted(snake[new])[:4])
    if "--write" not in sys.argv:
        print(len(turn), "names")
        return
    put = lambda m: turn.get(m.group(1), m.group(1))
    for path in files("crates", ".antt"):
        text = open(path, encoding="utf-8").read()
        lines = []
        for line in text.split("\n"):
            code, dashes, comment = line.partition("--")
            lines.append(ANY.sub(put, code).replace("′", "'") + dashes + comment)
        new = "\n".join(lines)
        if new != text:
            open(path, "w", encoding="utf-8").write(new)
    for path in files("crates", ".rt"):
        text = open(path, encoding="utf-8").read()
        new = "".join(ANY.sub(put, piece) if code else piece for code, piece in outside_strings(text, True))
        if new != text:
            open(path, "w", encoding="utf-8").write(new)
    print(len(turn), "names turned")


main()
