#!/usr/bin/env python3
"""Lists the places of docs/DESIGN-PASS.md in the sources below a folder.

    python3 tools/places.py [FOLDER] [--all]

For each point it prints how many lines match, and with --all the lines. It reads text and judges nothing:
which of the lines are places is said on the page.
"""
import collections
import pathlib
import re
import sys

SHOW = "--all" in sys.argv
FOLDER = pathlib.Path(next((a for a in sys.argv[1:] if not a.startswith("-")), "crates"))
FILES = sorted(p for p in FOLDER.glob("*/src/**/*.rt"))
LINES = [(p.relative_to(FOLDER), n, l.rstrip()) for p in FILES for n, l in enumerate(p.read_text().splitlines(), 1)]


def report(name, rows):
    print(f"{name}: {len(rows)}")
    if SHOW:
        for row in rows:
            print("    " + row)


def matching(pattern):
    rx = re.compile(pattern)
    return [f"{p}:{n}: {l.strip()}" for p, n, l in LINES if rx.search(l) and not l.strip().startswith("//")]


def functions():
    """Each function: its file, name, parameters, clauses and body."""
    for p in FILES:
        text = "\n".join(l for l in p.read_text().splitlines() if not l.strip().startswith("//"))
        for m in re.finditer(r"\bfn (\w+)[^(]*\(", text):
            i = m.end() - 1
            depth = 0
            for j in range(i, len(text)):
                depth += {"(": 1, ")": -1}.get(text[j], 0)
                if depth == 0:
                    break
            rest = text[j + 1:]
            head = re.match(r"(?:(?!\n\s*\{\n)[^{;]|\{[^\n]*\}(?=\n)|\{[^{}]*\}(?=\s*(?:requires|ensures|\n)))*", rest)
            body = rest[head.end():]
            if not body.startswith("{") and not body.lstrip().startswith("{"):
                continue
            body = body.lstrip()
            depth = 0
            for k in range(len(body)):
                depth += {"{": 1, "}": -1}.get(body[k], 0)
                if depth == 0:
                    break
            yield p.relative_to(FOLDER), m.group(1), text[i + 1:j], head.group(0), body[:k + 1]


KEYWORDS = set("if else match for in while loop return let mut self Self as fn break Some None Ok Err true false".split())


def shape(body):
    tokens = re.findall(r"\w+|[^\w\s]", body)
    return " ".join(t if t in KEYWORDS or not re.match(r"\w", t) else "x" for t in tokens)


ALL = list(functions())

report("1 enums", matching(r"^\s*(pub |pub\(crate\) )?enum "))
report("1 flags in structs", matching(r"^    (pub )?\w+: (\[bool|bool)"))
report("1 numbers as errors", matching(r"Result<.*, (u8|u16|u32|u64|usize)>"))
report("1 Option and Result taken apart", matching(
    r"((Ok|Err|Some)\(.*\) (if .*)?=>|None =>|let (Some|Ok|Err)\(|return None|return Ok\(None\)|\{ None \})"))

shapes = collections.defaultdict(list)
for p, name, _, _, body in ALL:
    s = shape(body)
    if len(s.split()) >= 12:
        shapes[s].append(f"{p} {name}")
report("2 functions of one shape", [" = ".join(v) for v in shapes.values() if len(v) > 1])
report("2 refusals written out", matching(r"^\s*layer: Layer::"))

report("3 counted loops", matching(r"for \w+ in [^{]*\.\.|\bwhile "))

report("4 tests of one variant", [f"{p} {n}" for p, n, _, _, b in ALL
                                  if re.search(r"=> (true|false),", b) and "match" in b])
report("4 orders and equalities", [f"{p} {n}" for p, n, _, _, b in ALL
                                   if re.search(r"return self\.\w+ (<|==) other\.\w+;|if self\.(\w+) != other\.\1", b)])
report("4 conversions", [f"{p} {n}" for p, n, _, _, b in ALL
                         if re.match(r"\{\s*match ", b) and len(re.findall(r"=>", b)) >= 2
                         and not re.search(r"write|print|Err\(.*return", b)])
BLANK = re.compile(r"\b([A-Z]\w+) \{((?:\s*(?:pub )?\w+: (?:0|false|\w+::(?:Spare|Idle)|\[(?:0|false); \w+\]),?)+)\s*\}")
report("4 blank values", [f"{p}: {m.group(1)} {{ {' '.join(m.group(2).split())} }}"
                          for p in FILES for m in BLANK.finditer(p.read_text())])

clauses = collections.defaultdict(set)
pairs = collections.defaultdict(set)
for p, name, params, head, _ in ALL:
    crate = str(p).split("/")[0]
    for c in re.findall(r"(?:requires|ensures)\s*\w*\s*\{ (.*) \}", head):
        clauses[crate, re.sub(r"\b(self|\w+)\.(old|now|new|entry)\b", r"\1", c).strip()].add(f"{p} {name}")
    names = [re.sub(r"\s+", " ", x.strip()) for x in re.split(r",(?![^<]*>)", params) if ":" in x]
    names = [x for x in names if not x.startswith(("rt", "self", "&"))]
    for a in range(len(names)):
        for b in range(a + 1, len(names)):
            pairs[crate, names[a], names[b]].add(f"{p} {name}")
report("5 clauses of three or more functions",
       [f"{len(v)} x {k[0]}: {k[1]}" for k, v in sorted(clauses.items(), key=lambda x: -len(x[1])) if len(v) >= 3])
report("5 parameters that go together in three or more",
       [f"{len(v)} x {k[0]}: {k[1]}, {k[2]}" for k, v in sorted(pairs.items(), key=lambda x: -len(x[1])) if len(v) >= 3])

report("6 arrays and slices in structs", matching(r"^    (pub |pub\(crate\) )?\w+: (&('\w+ )?(mut )?)?\["))
report("6 lengths in structs", matching(r"^    (pub |pub\(crate\) )?(len|length|count|\w+_count): "))

report("7 matches", matching(r"\bmatch "))
report("7 function pointers", matching(r"\bfn\(|\bdyn "))

answers = sorted(FOLDER.glob("*/proofs/**/Answers.antt"))
goals = sum(len(re.findall(r"^pub [^:\n]*: goal\.", a.read_text(), re.M)) for a in answers)
short = sum(len(re.findall(r"^[^\n:]* = search rules$", a.read_text(), re.M)) for a in answers)
lemmas = sum(len(re.findall(r"^(?:  )?(?:pub )?[\w'-]+ : .*→", f.read_text(), re.M))
             for f in FOLDER.glob("*/proofs/*.antt"))
print(f"8 answers: {goals}")
print(f"8 answers that are `search rules`: {short}")
print(f"8 lemmas in proofs/: {lemmas}")
