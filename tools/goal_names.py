"""Spells the names of goals and steps in proof files as today's Rattle makes them.

A dash joins the parts of such a name, and a part from the source keeps its spelling, so
in-err-read-link is in_err-read_link. Run once at the top, after snake_case.py.
"""

import os
import re

KIT = "/opt/rattle/rattle"
WORD = r"[A-Za-z_][\w']*(?:-[\w']+)+"
ANY = re.compile(r"(?<![\w'◌-])(" + WORD + r")(?![\w'-])")
MADE = {
    "in_err", "in_ok", "in_default", "overflow_add", "overflow_sub", "overflow_mul", "overflow_cast", "overflow_shl",
    "overflow_shr", "overflow_step", "overflow_neg", "slice_bounds", "nonzero_div", "nonzero_rem", "offset_bounds",
    "invariant_of", "type_inv", "from_residual", "yielded_by",
}


def files(top, ending):
    for folder, _, names in os.walk(top):
        if folder.endswith("/out") or "/out/" in folder:
            continue
        for name in sorted(names):
            if name.endswith(ending):
                yield os.path.join(folder, name)


def source_names():
    found = set(MADE)
    for path in files("crates", ".rt"):
        found.update(n for n in re.findall(r"[A-Za-z][A-Za-z0-9]*(?:_[A-Za-z0-9]+)+", open(path, encoding="utf-8").read()))
    for part in ("core/src", "std/src", "std_alloc/src", "std_collections/src", "std_io/src"):
        for path in files(os.path.join(KIT, part), ".rt"):
            found.update(re.findall(r"\bfn ([a-z][a-z0-9]*(?:_[a-z0-9]+)+)", open(path, encoding="utf-8").read()))
    return found


def from_library(text):
    found = set()
    for m in re.finditer(r"^\s*(?:pub )?use (?:Rattle\.std|Prim|native|mathlib|lib|mir|borrow)\b[^{\n]*\{([^}]*)\}", text, re.M):
        found.update(ANY.findall(m.group(1)))
    return found


def main():
    known = source_names()
    for path in list(files("crates", ".antt")):
        if os.path.basename(path) not in ("Answers.antt", "Invariants.antt", "Choices.antt", "Proof.antt"):
            continue
        text = open(path, encoding="utf-8").read()
        library = from_library(text)

        def spelled(m):
            name = m.group(1)
            if name in library:
                return name
            words = name.split("-")
            out = []
            i = 0
            while i < len(words):
                for j in range(len(words), i + 1, -1):
                    whole = "_".join(words[i:j])
                    if whole in known:
                        out.append(whole)
                        i = j
                        break
                else:
                    out.append(words[i])
                    i += 1
            return "-".join(out)

        new = "\n".join(
            code[0] + "--" + code[2] if code[1] else code[0]
            for code in ((ANY.sub(spelled, c), d, r) for c, d, r in (line.partition("--") for line in text.split("\n")))
        )
        new = new.replace("·", "-")
        if new != text:
            open(path, "w", encoding="utf-8").write(new)


main()
