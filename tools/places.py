#!/usr/bin/env python3
"""Counts the places of src/ that have an older form than the language allows, by the points of docs/DESIGN-PASS.md.

    tools/places.py [-v] [FOLDER]      of the repository, or of another checkout; -v names each place
"""
import collections
import glob
import re
import sys

verbose = "-v" in sys.argv
folder = next((a for a in sys.argv[1:] if a != "-v"), ".")
files = sorted(glob.glob(folder + "/crates/*/src/*.rt"))
text = {f: re.sub(r"^\s*//.*\n", "", open(f).read(), flags=re.M) for f in files}


def crate_of(f):
    return f.split("/crates/")[1].split("/")[0]


def closing(s, i):
    """The index behind the bracket that closes the one just before i."""
    depth = 1
    while depth:
        depth += {"(": 1, "{": 1, "[": 1, ")": -1, "}": -1, "]": -1}.get(s[i], 0)
        i += 1
    return i


Fn = collections.namedtuple("Fn", "crate name public params head body")
fns = []
for f in files:
    s = text[f]
    for m in re.finditer(r'^[ ]*(pub )?(?:extern "C" )?fn (\w+)(<[^>(]*>)?\(', s, re.M):
        i = closing(s, m.end())
        params = [p.strip() for p in s[m.end() : i - 1].split(",") if p.strip()]
        j = s.find("{\n", i)
        while s[s.rfind("\n", 0, j) + 1 : j].strip() and "{" in s[i:j] and s[i:j].count("{") != s[i:j].count("}"):
            j = s.find("{\n", j + 1)
        fns.append(Fn(crate_of(f), m.group(2), bool(m.group(1)), params, s[i:j], s[j : closing(s, j + 1)]))

names = lambda fn: {p.split(":")[0].strip().removeprefix("mut ") for p in fn.params}


def show(title, hits):
    hits = sorted(set(hits) if hits and isinstance(hits[0], tuple) else hits)
    c = collections.Counter(h[0] for h in hits)
    print(f"{title}: {len(hits)}   " + ", ".join(f"{k} {v}" for k, v in sorted(c.items(), key=lambda x: (-x[1], x[0]))))
    if verbose and hits:
        print("    " + " ".join(f"{h[0]}::{h[1]}" for h in hits))


def lines(pattern):
    return [(crate_of(f), f"{n}:{l.strip()[:50]}") for f in files for n, l in enumerate(text[f].split("\n"), 1) if re.search(pattern, l)]


def functions(test):
    return [(fn.crate, fn.name) for fn in fns if test(fn)]


types = []  # crate, name, kind, cases or fields
for f in files:
    for m in re.finditer(r"^\s*(?:pub )?(enum|struct) (\w+)(?:<[^>]*>)? \{", text[f], re.M):
        body = text[f][m.end() : closing(text[f], m.end()) - 1]
        flat = re.sub(r"\([^()]*\)|\{[^{}]*\}", lambda x: "()" if x.group(0)[0] == "(" else "{}", body)
        types.append((crate_of(f), m.group(2), m.group(1), [x.strip() for x in flat.split(",") if x.strip()], body))

print("functions", len(fns), "public", sum(x.public for x in fns), "enums", sum(t[2] == "enum" for t in types), "structs", sum(t[2] == "struct" for t in types))

EMPTY = r"^(None|Nothing|Wrong|Pass|Keyword|TooWide|Broken|End|Silent)$"
show("1 enums with a case for nothing, or for a pass", [(c, n) for c, n, k, cs, b in types if k == "enum" and any(re.match(EMPTY, x) for x in cs)])
show("1 enums with a case for a refusal or a broken form", [(c, n) for c, n, k, cs, b in types if k == "enum" and any(re.match(r"^(Refuse|Refuses|Keyword|Wrong|Cut|Failed|Stopped)", x) for x in cs) and n != "Refusal"])
show("1 structs with a verdict, a flag or a place beside a value", [(c, n) for c, n, k, cs, b in types if k == "struct" and re.search(r"\b(verdict|large|next|refused)\b *:", b)])
show("1 functions that compare the number of a kind", functions(lambda x: re.search(r"\bkind(_here\([^()]*\))? *(==|<|<=) *\d|\b\d+ *(==|<|<=) *kind\b", x.body)))


def shape(body):
    """A body with its names, numbers and strings by the order in which they come."""
    seen = {}
    tokens = re.findall(r'b?"(?:[^"\\]|\\.)*"|0x[\w]+|\d[\w_]*|\w+(?:::\w+)*|\S', body)
    keep = {"if", "else", "return", "let", "mut", "while", "for", "in", "match", "true", "false", "None", "Some", "Ok", "Err"}
    return " ".join(t if t in keep or not re.match(r'[\w"]', t) else seen.setdefault(t, f"n{len(seen)}") for t in tokens)


groups = collections.defaultdict(list)
for x in fns:
    if x.body.count("\n") >= 3:
        groups[shape(x.body)].append(x)
show("2 functions that have another's shape", [(x.crate, x.name) for g in groups.values() if len(g) > 1 for x in g])
fields = collections.defaultdict(list)
for c, n, k, cs, b in types:
    if k == "enum":
        fields[(re.sub(r"\s+", "", b))].append((c, n))
show("2 enums with another's cases", [h for g in fields.values() if len(g) > 1 for h in g])
show("2 ladders of one call in several sizes", functions(lambda x: len(re.findall(r"let mut \w+ = \[0u\d+; \d+\];", x.body)) > 1))

show("3 loops that count by hand (while, loop)", lines(r"^\s*(while\b.*|loop) \{"))

show("4 arms that only list cases", lines(r"\w+::\w+ ?(\{[^}]*: _[^}]*\}|\(_\)) =>") + lines(r"^\s*\w+: _,$"))
show("4 arms that answer true or false", lines(r"\w+::\w+(\(_\)| \{[^}]*\})? => (true|false),"))
show("4 lets that only copy a field", lines(r"^\s*let (\w+) = (\w+)\.\1;"))
show("4 functions that only widen", functions(lambda x: re.fullmatch(r"\{\s*\w+ as \w+\s*\}", x.body)))
show("4 equality by hand", functions(lambda x: re.match(r"same_(bytes|size|name)$", x.name)))
show("4 bytes by their numbers", lines(r"\bb?\w+ (==|<=|<|!=) (10|45|48|57|65|90|95|97|122)\b|\b(10|45|48|57|65|90|95|97|122) (==|<=|<) \w|(- 48|48 \+|87 \+)"))
show("4 limits by their numbers", lines(r"\b(2147483647|2147483648|16384|65536|8192|4294967296|1844674407370955161\d?)\b"))

show("5 rows, values and fields of a record, loose", functions(lambda x: len(names(x) & {"rows", "values", "fields"}) >= 2))
show("5 the record and its rows, loose", functions(lambda x: {"rec", "rows"} <= names(x) and not names(x) & {"values", "fields"}))
show("5 a buffer and a place, loose", functions(lambda x: {"out", "at"} <= names(x)))
show("5 a requires of Fine or AllFine", functions(lambda x: "Fine t" in x.head or re.search(r"requires[^{]*\{[^}]*Fine ", x.head)))
show("5 a plan and its length, loose", functions(lambda x: {"plan", "n"} <= names(x)))
show("5 an open chunk and its kinds, loose", functions(lambda x: {"c", "kinds"} <= names(x) or {"t", "len"} <= names(x)))
show("5 seven parameters or more", functions(lambda x: len(x.params) >= 7))

show("6 an array of pairs, or a length beside an array", lines(r"\[usize; 128\]|conds: &(mut )?\[usize\]|^\s*pub len: usize,|^\s*len: usize,"))
show("7 an enum that says which step to run", [(c, n) for c, n, k, cs, b in types if k == "enum" and n in ("Named", "Parented", "Role", "Wanted", "Asked")])
show("7 chains of if by a number", functions(lambda x: len(re.findall(r"if \w+ == \d+ \{", x.body)) >= 4))
answers = glob.glob(folder + "/crates/*/proofs/**/Answers.antt", recursive=True)
print("8 files of answers:", len(answers), " lines:", sum(open(f).read().count("\n") for f in answers))
own = [f for f in glob.glob(folder + "/crates/*/proofs/**/*.antt", recursive=True) if not f.endswith(("Answers.antt", "Invariants.antt", "Lib.antt"))]
print("8 files of lemmas:", len(own), " lines:", sum(open(f).read().count("\n") for f in own))
