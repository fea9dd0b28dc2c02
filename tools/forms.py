"""Lists what in src/ may be written in an older form than Rattle has: python3 tools/forms.py [NUMBER ..]

1 enums of the shape of Option or Result or without derives, numbers for kinds, flags with a value, matches on an Option or a Result
2 functions and structs that are alike but for names and numbers
3 loops over a range, or with `while`
4 impls of traits that a derive can write, conversions and orders by hand
5 clauses, and groups of parameters, that three or more functions have
6 structs of an array and a count, and arrays that a function fills
7 matches on a kind, and tables of functions
8 answers, invariants and lemmas in proofs/
"""
import collections
import glob
import re
import sys

FUNCTION = re.compile(r'^( *)(?:pub(?:\(crate\))? )?(?:extern "C" )?fn (\w+)', re.M)


def sources():
    for path in sorted(glob.glob("crates/*/src/**/*.rt", recursive=True)):
        with open(path) as file:
            yield path[len("crates/"):], file.read()


def lines(pattern):
    for path, text in sources():
        for number, line in enumerate(text.split("\n"), 1):
            code = line.split("//")[0]
            if "ghost use" not in code and re.search(pattern, code):
                yield f"{path}:{number}: {line.strip()}"


def functions():
    """Each function: its place, its name, its head with its clauses, and its body."""
    for path, text in sources():
        for found in FUNCTION.finditer(text):
            indent = found.group(1)
            opened = re.compile(r"(?:^%s\{| \{)$" % indent, re.M).search(text, found.end())
            closed = re.compile(r"^%s\}" % indent, re.M).search(text, found.end())
            if opened and closed and opened.end() < closed.start():
                line = text.count("\n", 0, found.start()) + 1
                head = text[found.start():opened.start()]
                yield f"{path}:{line}", found.group(2), head, text[opened.end():closed.start()]


def tokens(code):
    code = re.sub(r"//.*", "", code)
    return re.findall(r'"[^"]*"|\w+|[^\w\s]', code)


KEPT = set("match if else for in while let mut return self Self Some None Ok Err true false as ref".split())


def shape(code):
    return tuple("_" if re.match(r'[\w"]', t) and t not in KEPT else t for t in tokens(code))


def matches():
    """Matches of which each arm is one of Some and None, or of Ok and Err."""
    for path, text in sources():
        for found in re.finditer(r"^( *)(.*)\bmatch (.*) \{\n", text, re.M):
            closed = re.compile(r"^%s\}" % found.group(1), re.M).search(text, found.end())
            arms = re.findall(r"^%s    (\w+).*=>" % found.group(1), text[found.end():closed.start()], re.M)
            if arms and set(arms) <= {"Some", "None", "Ok", "Err"}:
                yield f"{path}:{text.count(chr(10), 0, found.start()) + 1}: match {found.group(3)}"


def enums():
    """Each enum: its place, its name, what it derives, and the payload of each variant."""
    for path, text in sources():
        for found in re.finditer(r"((?:#\[derive\(.*\)\]\n)?)(?:pub(?:\(crate\))? )?enum (\w+)[^{]*\{([^}]*)\}", text):
            body = re.sub(r"//.*", "", found.group(3))
            variants = re.findall(r"\b[A-Z]\w*(?:\(([^)]*)\))?,", body)
            yield f"{path}: enum {found.group(2)}", found.group(1), variants


def one():
    for place, derived, variants in enums():
        if len(variants) == 2 and any(variants) and not any("," in v for v in variants):
            yield f"{place}: two variants, as an Option or a Result has"
        if "PartialEq" not in derived or "Debug" not in derived:
            yield f"{place}: no Debug, PartialEq"
    yield from lines(r"\bkind\b.*==|\btag\b.*==|match \w+(\.\w+)*\.(kind|tag)\b|from_number|Result<bool>|Result<\(\), usize>|kind: Kind")
    yield from matches()


def two():
    groups = collections.defaultdict(list)
    for place, name, _, body in functions():
        if len(tokens(body)) >= 8:
            groups[shape(body)].append(f"{place} {name}")
    for group in groups.values():
        if len(group) > 1:
            yield " = ".join(group)
    fields = collections.defaultdict(list)
    for path, text in sources():
        for found in re.finditer(r"struct (\w+)[^{;]*\{([^}]*)\}", text):
            kinds = tuple(shape(f.split(":", 1)[1]) for f in re.findall(r"^\s*(?:pub )?\w+: [^{]*,$", found.group(2), re.M))
            fields[kinds].append(f"{path} {found.group(1)}")
    for kinds, group in fields.items():
        if len(group) > 1 and len(kinds) > 1:
            yield " = ".join(group)


def three():
    yield from lines(r"\bfor \S+ in [^{]*\.\.[^{]*\{|\bwhile |\bloop \{")


def four():
    yield from lines(r"impl.* (PartialEq|Eq|PartialOrd|Ord|Clone|Copy|Debug|Hash|Default|Ordered)\b.* for |fn from_\w+\(|fn is_before")


def five():
    clauses, groups = collections.defaultdict(set), collections.defaultdict(set)
    for place, name, head, _ in functions():
        where = f"{place.split(':')[0]} {name}"
        for clause in re.findall(r"(?:requires|ensures)(?: \w+)? \{ (.*) \}", head):
            clauses[clause].add(where)
        parameters = re.findall(r"(\w+): (&?(?:mut )?[\w<>\[\], ]+?)(?:,|\)|\n)", head.split("requires")[0].split("ensures")[0])
        for i, first in enumerate(parameters):
            for second in parameters[i + 1:]:
                groups[first + second].add(where)
    for group in (clauses, groups):
        for what, where in sorted(group.items(), key=lambda g: -len(g[1])):
            if len(where) >= 3 and what[0] != "rt":
                yield f"{len(where)} {what if isinstance(what, str) else ' '.join(what)}: {', '.join(sorted(where))}"


def six():
    for path, text in sources():
        for found in re.finditer(r"struct (\w+)[^{;]*\{([^}]*)\}", text):
            if re.search(r"\[\w+(; \w+)?\],?$", found.group(2), re.M) and re.search(r"\b\w*(count|length|len)\b: usize", found.group(2)):
                yield f"{path} struct {found.group(1)}"
    yield from lines(r"let mut \w+(: \S+)? = \[[^\];]+; ?[^\]]+\]")


def seven():
    yield from lines(r"match .*(kind|command|step|as_str\(\))|\[fn\(|: fn\(")


def eight():
    counts = collections.defaultdict(collections.Counter)
    for path in sorted(glob.glob("crates/*/proofs/**/*.antt", recursive=True)):
        with open(path) as file:
            text = file.read()
        kind = {"Answers.antt": "answers", "Invariants.antt": "invariants"}.get(path.split("/")[-1], "lemmas")
        crate = path.split("/")[1]
        counts[crate][kind] += len(re.findall(r"^(?:abbrev )?(?:pub )?[a-z]\S* :", text, re.M))
        counts[crate]["lines"] += text.count("\n")
    for crate, count in counts.items():
        yield f"{crate}: {count['answers']} answers, {count['invariants']} invariants, {count['lemmas']} lemmas, {count['lines']} lines"


POINTS = [one, two, three, four, five, six, seven, eight]

for chosen in [int(word) for word in sys.argv[1:]] or range(1, 9):
    found = list(POINTS[chosen - 1]())
    print(f"point {chosen}: {len(found)}")
    for line in found:
        print("  " + line)
