#!/usr/bin/env python3
"""Brings the repository's own ghost names to one spelling.

Words (definitions, lemmas, fields, constructors, local names) go to snake case, and facts, that is
definitions whose value is a type, to upper camel case. Names of the library, names that the check
makes (goals, steps of the code) and names from the Rust text keep theirs. Run once, at the top.
"""
import glob
import re
import sys

TOKEN = re.compile(r"\.?[A-Za-z0-9_'₀-₉ℕℤ]+(?:-[A-Za-z0-9_'₀-₉ℕℤ]+)+(?![\w*-])")
DECLARED = re.compile(
    r"^(?:(?:abbrev|unfoldable)\s+)?(?:pub\s+)?(?:abbrev\s+|unfoldable\s+)?(record\s+|data\s+|ruleset\s+)?"
    r"([^\s:(){}]+)(?:\s+[({][^=]*?)?\s*:\s*(.*)$"
)
FIELD = re.compile(r"^  +(?:pub )?((?:[^\s:(){}]+ )*[^\s:(){}]+)\s*: ")
USE = re.compile(r"^\s*(?:ghost )?use ([\w.+-]+?)\.\{(.*)\}")
ALIAS = re.compile(r" as ([\w-]+)")
# What the check makes: goals and steps, cited bare where a file imports them.
MADE = re.compile(
    r"^(then|else|loop|returns|invariant|decreases|if|in|index|overflow|bounds|offset|breaks|from-residual)-"
    r"|-requires(-\d+)?$|-(init|preserved|smaller|all|map-requires)$"
)
OWN = {"in-slot", "in-admission", "in-text", "loop-x"}
FACT = re.compile(r"(^|→ |: )Type 0( where)?\s*$")


def ghost_files():
    return sorted(
        glob.glob("crates/*/specs/*.antt") + glob.glob("crates/*/proofs/**/*.antt", recursive=True)
    )


def lemma_file(path):
    return not path.endswith(("/Answers.antt", "/Invariants.antt", "/Choices.antt"))


def snake(name):
    return name.replace("-", "_")


def camel(name):
    return "".join(part[:1].upper() + part[1:] for part in name.split("-"))


def strip(line):
    return line.split("--")[0]


def own_crates():
    lines = [line.split("#")[0].strip() for line in open("crates.txt", encoding="utf-8")]
    return {line.split(":")[0].split()[0] for line in lines if line}


def library_names(text, own):
    """The names that a file brings in from elsewhere."""
    names = set()
    for line in text.split("\n"):
        found = USE.match(line)
        if found and not (found.group(1).startswith("Rattle.") and found.group(1).split(".")[1] in own):
            names |= {n.strip().split(" as ")[-1] for n in found.group(2).split(",")}
    return names


def collect():
    """Each dashed name that the repository declares, with its new spelling; and each dashed field."""
    declared, fields = {}, {}
    for path in ghost_files():
        for raw in open(path, encoding="utf-8"):
            line = strip(raw.rstrip("\n"))
            found = DECLARED.match(line)
            if found and line[:1] not in " \t":
                sort, name, rest = found.groups()
                if "-" not in name or (not lemma_file(path) and MADE.search(name)):
                    continue
                fact = bool(sort and sort.strip() != "ruleset") or bool(FACT.search(rest))
                new = camel(name) if fact else snake(name)
                if declared.setdefault(name, new) != new:
                    print(f"twice: {name}: {declared[name]}, {new} in {path}")
                continue
            found = FIELD.match(line)
            if found and lemma_file(path):
                for name in found.group(1).split():
                    if "-" in name and "--" not in name:
                        fields[name] = snake(name)
    return declared, fields


def respell(text, declared, fields, left, own):
    library = library_names(text, own)

    def one(found):
        token = found.group(0)
        dotted = token.startswith(".")
        name = token.lstrip(".")
        if name in library:
            return token
        if dotted:
            new = fields.get(name) or declared.get(name)
            return "." + new if new else token
        if name in declared:
            return declared[name]
        if name in fields:
            return fields[name]
        if MADE.search(name) and name not in OWN:
            return token
        left.add(name)
        return snake(name)

    lines = []
    for line in text.split("\n"):
        code, dash, comment = line.partition("--") if "--" in line else (line, "", "")
        lines.append(TOKEN.sub(one, code) + dash + TOKEN.sub(named(declared), comment))
    return "\n".join(lines)


def named(declared):
    return lambda found: declared.get(found.group(0), found.group(0))


def respell_source(text, declared, fields, own):
    """In Rust text only ghost lines and clauses change: a dash with no spaces is never a minus there."""
    out = []
    aliases = {n: snake(n) for line in text.split("\n") if USE.match(line) for n in ALIAS.findall(line)}
    both = {**fields, **declared, **aliases}
    library = library_names(text, own)
    for line in text.split("\n"):
        code, slashes, comment = line.partition("//")
        if '"' not in code and not code.lstrip().startswith("#["):
            code = TOKEN.sub(
                lambda m: m.group(0)
                if m.group(0).lstrip(".") in library
                else ("." if m.group(0)[0] == "." else "") + both.get(m.group(0).lstrip("."), m.group(0).lstrip(".")),
                code,
            )
        out.append(code + slashes + TOKEN.sub(named(declared), comment))
    return "\n".join(out)


def clashes(declared):
    """Names that fall together with another name of the same file."""
    for path in ghost_files():
        seen = {}
        for raw in open(path, encoding="utf-8"):
            found = DECLARED.match(strip(raw.rstrip("\n")))
            if found and raw[:1] not in " \t":
                name = found.group(2)
                new = declared.get(name, name)
                if seen.setdefault(new, name) != name:
                    print(f"fall together: {seen[new]} and {name} in {path}")


def main():
    own = own_crates()
    declared, fields = collect()
    clashes(declared)
    left = set()
    for path in ghost_files():
        text = open(path, encoding="utf-8").read()
        new = respell(text, declared, fields, left, own)
        if new != text:
            open(path, "w", encoding="utf-8").write(new)
    for path in sorted(glob.glob("crates/*/src/**/*.rt", recursive=True) + glob.glob("crates/*/must-fail/*.edit")):
        text = open(path, encoding="utf-8").read()
        new = respell_source(text, declared, fields, own)
        if new != text:
            open(path, "w", encoding="utf-8").write(new)
    for path in sorted(glob.glob("docs/*.md") + ["README.md"]):
        text = open(path, encoding="utf-8").read()
        new = re.sub(r"`([^`\s]+)`", lambda m: "`" + declared.get(m.group(1), m.group(1)) + "`", text)
        if new != text:
            open(path, "w", encoding="utf-8").write(new)
    print("names:", len(declared), "fields:", len(fields), "others:", " ".join(sorted(left)), file=sys.stderr)


if __name__ == "__main__":
    main()
