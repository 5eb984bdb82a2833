#!/usr/bin/env python3
"""Brings the repository's own definitions and lemmas to snake case: `localNumber` becomes `local_number`, `words-one` becomes `words_one`.

Run once at the top of the repository, right after port.py. Names of the library, of types and of what Rattle generates stay, and so does all
of src/ but its clauses and `ghost use` lines. Must-fail edits are respelled with it. Where a lemma would get the name of a definition it ends in `_lem`.
"""
import collections
import glob
import re

NAME = r"[^\s(){}\[\];,.λ@\"`/←]+"
TOKEN = re.compile(NAME)
# Their own spelling: a library lemma of that name stands beside ours, or Rattle generates what follows the prefix.
STAY = {"length-map", "length-replicate", "length-take-le", "mod-eq_of_lt", "sub-eq-zero_of_le"}
GENERATED = ("invariant-", "decreases-", "μ-", "Inv-", "returns-", "loop-")


def snake(name):
    return re.sub(r"(?<=[a-z0-9])([A-Z])", lambda m: "_" + m.group(1).lower(), name).replace("-", "_")


def without_comments(text):
    return re.sub(r"--.*", "", text)


def declared(text):
    """The names that a file declares, at its head or in a `where` or a `let`, and the names of arguments."""
    text = without_comments(text)
    for line in text.split("\n"):
        found = re.match(r"\s*(?:(?:pub|abbrev|unfoldable|data|record|ruleset)\s+)*(" + NAME + r")\s+(?::|[^=:]*=)", line)
        if found:
            yield found.group(1)
        for found in re.finditer(r"\blet\s+(" + NAME + r")", line):
            yield found.group(1)
        for found in re.finditer(r"[({]((?:" + NAME + r"\s+)+):", line):
            yield from found.group(1).split()
        for found in re.finditer(r"λ\s+([^.(]*)\.", line):
            yield from found.group(1).split()


def collect(files):
    """What the files declare, what the files of laws declare, and what specs/ defines at the head of a line."""
    own, laws, defined = set(), set(), set()
    for name in files:
        text = open(name).read()
        names = set(declared(text))
        own |= names
        if not name.endswith("/Proof.antt"):
            laws |= names
        if "/specs/" in name:
            defined |= set(re.findall(r"^(?:abbrev |unfoldable |pub )*(" + NAME + r") :", text, re.M))
    return own, laws, defined


def wanted(name):
    if name in STAY or name.startswith(GENERATED) or not re.match(r"\+?[A-Za-z]", name):
        return False
    return "-" in name.lstrip("+") and not re.search(r"[*≤<>=+^%≡]", name.lstrip("+")) or bool(re.match(r"[a-z]+[a-z0-9]*[A-Z]", name))


def renamed(files):
    own, laws, defined = collect(files)
    turned = {name: snake(name) for name in own if wanted(name)}
    by_new = collections.defaultdict(set)
    for old, new in turned.items():
        by_new[new].add(old)
    for new, olds in sorted(by_new.items()):
        claims = set(olds) | ({new} if new in laws else set())
        if len(claims) == 1:
            continue
        first = sorted(claims, key=lambda name: (name not in defined, "-" in name or "_" in name, name))[0]
        for name in claims - {first}:
            turned[name] = new + "_lem"
    return turned


def respell(text, turned, fields=True):
    """Without `fields`, names behind a dot stay: in a proof that walks the code they are Rattle's."""
    def turn(found):
        behind_dot = found.start() > 0 and text[found.start() - 1] == "."
        return found.group(0) if behind_dot and not fields else turned.get(found.group(0), found.group(0))
    return TOKEN.sub(turn, text)


def respell_source(text, turned):
    """Only clauses and `ghost use` lines; in comments what stands between backquotes."""
    out, depth, ghost = [], 0, False
    for line in text.split("\n"):
        code = line.lstrip()
        if depth == 0 and re.match(r"(requires|ensures|ghost)\b", code):
            ghost = True
        if ghost and not code.startswith("//"):
            depth += code.count("{") - code.count("}")
            line = respell(line, turned)
            ghost = depth > 0
        elif "//" in line:
            at = line.index("//")
            line = line[:at] + re.sub(r"`[^`]*`", lambda m: respell(m.group(0), turned), line[at:])
        out.append(line)
    return "\n".join(out)


def main():
    files = sorted(name for name in glob.glob("crates/**/*.antt", recursive=True) if "/out/" not in name)
    turned = renamed(files)
    for name in files:
        text = open(name).read()
        new = respell(text, turned, fields=not name.endswith("/Proof.antt"))
        if new != text:
            open(name, "w").write(new)
    for name in sorted(glob.glob("crates/*/src/**/*.rt", recursive=True)):
        text = open(name).read()
        new = respell_source(text, turned)
        if new != text:
            open(name, "w").write(new)
    for name in sorted(glob.glob("crates/*/must-fail/*.edit")):
        text = open(name).read()
        new = respell(text, turned)
        if new != text:
            open(name, "w").write(new)
    for old in sorted(turned):
        print(old, turned[old])


if __name__ == "__main__":
    main()
