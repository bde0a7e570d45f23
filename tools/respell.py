#!/usr/bin/env python3
"""Brings the repository's own definitions, lemmas, fields and constructors to snake case, once, behind the port's scripts. Called at the top: respell.py

A name is one that specs/ or a lemma file of proofs/ declares, with a capital inside (percolateUp) or a dash (walk-step): it becomes percolate_up, walk_step.
It is turned in specs/ and proofs/, in the clauses and `ghost use` lines of src/, in the edits, and between backticks in comments and pages.
Where two names of one file, or a name and another declared one, would fall together, the later one ends in `_lem`; each such pair is printed.
"""
import collections
import glob
import os
import re
import sys

WORD = re.compile(r"[^\s(){}.;,@\"«»\[\]\\:`]+")
KEYWORDS = {"unfoldable", "abbrev", "pub", "record", "data", "opaque", "ruleset"}
# Names that would meet another definition in a file.
GIVEN = {"anyOpen": "any_open", "carriedOn": "carried_on", "isOpen": "is_open", "ofNumber": "of_number", "pastOpen": "past_open", "readBack": "read_back", "noneRight": "none_right", "wentBack": "went_back"}
# Lemmas that had a dash before the port's scripts, and would fall together with one of these.
LEMMAS = {"any_open", "carried_on", "of_number", "past_open", "read_back"}
WALKS = ("Proof.antt", "Answers.antt", "Invariants.antt")


def read(path):
    with open(path, encoding="utf-8") as file:
        return file.read()


def snake(name):
    name = name.replace("getD", "get_or")
    if name[0].islower():
        name = re.sub(r"(?<=[a-z0-9'])([A-Z])", lambda m: "_" + m[1].lower(), name)
    return name.replace("-", "_")


def declared(text):
    """The names that a file of definitions or lemmas declares, with their indentation."""
    inside = 0
    for line in text.split("\n"):
        bare = line.strip()
        if bare.startswith(("--", "use ", "pub use", "mod ", "pub mod")):
            continue
        words = bare.split(" ")
        at = 0
        while at < len(words) and words[at] in KEYWORDS:
            at += 1
        if at + 1 >= len(words) or not WORD.fullmatch(words[at]):
            continue
        nexts = words[at + 1]
        if nexts == ":" or (at and nexts[:1] in "({" and nexts):
            yield words[at]
        elif at and nexts == ":":
            yield words[at]


def main():
    antt = sorted(p for p in glob.glob("crates/**/*.antt", recursive=True) if "/out/" not in p)
    lemma = [p for p in antt if os.path.basename(p) not in WALKS]
    owners = collections.defaultdict(set)
    for path in lemma:
        for name in declared(read(path)):
            owners[name].add(path)
    # goals of the walks keep the names that the toolchain made
    made = collections.Counter()
    local = set()
    for path in antt:
        if os.path.basename(path) in WALKS:
            for m in re.finditer(r"(?m)^(?:abbrev )?(?:pub )?(\S+) : (\S+)", read(path)):
                if m[2].startswith(("tie.", "goal.")):
                    made[m[1]] += 1
                elif not m[1].endswith("-spec") and not m[1].endswith("_spec"):
                    local.add(m[1])
    every = set(owners) | local
    camel = re.compile(r"[a-z][a-z0-9_']*[A-Z]")
    turned = {}
    for name in sorted(set(owners)):
        if name in made:
            if "-" in name:
                print("kept, as goals have this name:", name, sorted(owners[name])[:2], made[name])
                continue
        if "-" in name or camel.match(name):
            turned[name] = snake(name)
    taken = collections.defaultdict(list)
    for name in every:
        taken[turned.get(name, name)].append(name)
    where = collections.defaultdict(set)
    for path in antt + sorted(glob.glob("crates/**/*.rt", recursive=True)):
        for word in WORD.findall(read(path)):
            where[word].add(path)
    for new, names in sorted(taken.items()):
        if len(names) == 1:
            continue
        # a name that has the spelling already stays, then a definition's, then a lemma's: a lemma that meets one of them in a file ends in _lem
        names.sort(key=lambda n: (n != new, "-" in n, n))
        for at, n in enumerate(names[1:], 1):
            both = set().union(*(where[n] & where[m] for m in names[:at]))
            if both and n in turned:
                turned[n] = GIVEN.get(n, new + "_lem")
                print("falls together:", names[:at], n, "->", turned[n], [sorted(owners.get(m, set()))[:2] for m in names[: at + 1]], sorted(both)[:2])

    own = {os.path.basename(os.path.dirname(p)) for p in glob.glob("crates/*/src")}

    def foreign(text):
        """The names that a file imports from the toolchain's library: they stay."""
        names = set()
        for m in re.finditer(r"(?ms)^(?:pub |ghost )?use ([\w.·\u0370-\u03ff]+?)\.\{([^}]*)\}", text):
            head = m[1].split(".")
            if not (head[0] == "Rattle" and len(head) > 1 and head[1] in own):
                names |= {n for part in m[2].split(",") for n in part.split()}
        return names

    steps = set()
    for path in glob.glob("crates/**/*.rt", recursive=True):
        steps |= {n.replace("_", "-") for n in re.findall(r"\bfn (\w+)", read(path))}

    def words(text, stay, walk=False):
        def one(m):
            n = m[0]
            if n in stay:
                return n
            # a step of a walk, which has the name of the function called
            if walk and n in steps and text[: m.start()].endswith("."):
                return n
            if n in LEMMAS and not text[: m.start()].endswith("."):
                return n + "_lem"
            if n in turned:
                return turned[n]
            if camel.match(n) and "-" not in n and not re.search(r"[^\w']", n):
                return snake(n)
            return n
        return WORD.sub(one, text)

    ticks = lambda text: re.sub(r"`[^`\n]*`", lambda m: re.sub(WORD, lambda w: turned.get(w[0], w[0]), m[0]), text)
    count = 0
    for path in antt:
        text = read(path)
        out, stay = [], foreign(text)
        for line in text.split("\n"):
            code, dashes, comment = line.partition("--") if re.search(r"(^|\s)--(\s|$)", line) else (line, "", "")
            out.append(words(code, stay, os.path.basename(path) in WALKS) + dashes + ticks(comment))
        new = "\n".join(out)
        if new != text:
            open(path, "w", encoding="utf-8").write(new)
            count += 1
    for path in sorted(glob.glob("crates/**/*.rt", recursive=True)):
        text = read(path)
        # clauses and ghost lines: from their head to the end of their braces
        out, depth, inside, stay = [], 0, False, foreign(text)
        for line in text.split("\n"):
            if line.lstrip().startswith("//"):
                out.append(ticks(line))
                continue
            if not inside and re.match(r"\s*(ghost use |requires\b|ensures\b|ghost \w+:|ghost \w+ ?\{|#\[tactic)", line):
                inside, depth = True, 0
            if inside:
                depth += line.count("{") - line.count("}")
                out.append(words(line, stay))
                if depth <= 0:
                    inside = False
            else:
                out.append(line)
        new = "\n".join(out)
        if new != text:
            open(path, "w", encoding="utf-8").write(new)
            count += 1
    for path in sorted(glob.glob("crates/*/must-fail/*.edit")):
        text = read(path)
        new = "\n".join(re.sub(r"^(old: |new: )(.*)$", lambda m: m[1] + words(m[2], set()), line) for line in text.split("\n"))
        if new != text:
            open(path, "w", encoding="utf-8").write(new)
            count += 1
    for path in sorted(["README.md"] + glob.glob("docs/*.md")):
        if os.path.basename(path) in ("LANDINGS.md",):
            continue
        text = read(path)
        new = ticks(text)
        if new != text:
            open(path, "w", encoding="utf-8").write(new)
            count += 1
    print(len(turned), "names in", count, "files")


main()
