#!/usr/bin/env python3
"""Respells this repository's own definitions and lemmas as Rattle's library does: words in snake case, with `_` between the parts of a lemma's name.

usage: python3 tools/respell.py [--list]      at the top of the repository, once, after port.py

    outcomeOf, run-stop, DEC-LITERAL  ->  outcome_of, run_stop, DEC_LITERAL

A name is this repository's own where a file of specs/ or proofs/ defines it. Functions of src/, exported names, strings, inputs and outputs keep
theirs, and so do the names that Rattle makes (of goals and of the steps before them). --list prints the new names, and those that fall together,
and writes nothing.
"""

import collections
import glob
import re
import sys

NAME = r"[^\s(){}\[\].,;:@\"«»\\`|]+"
DEFINED = re.compile(rf"^[ \t]*(?:(?:abbrev|unfoldable|pub|ruleset|syntax)[ \t]+)*({NAME})(?:[ \t]+\{{[^}}\n]*\}})*[ \t]*:[ \t\n]([^\n]*)", re.M)
FIELD = re.compile(rf"^[ \t]+pub[ \t]+({NAME})[ \t]*:[ \t]", re.M)
DATA = re.compile(rf"^[ \t]*(?:pub[ \t]+)?(?:data|record)[ \t]+({NAME})", re.M)
INLINE = re.compile(rf"record \{{ ({NAME}) = |; ({NAME}) = ")
USE = re.compile(r"^[ \t]*(?:pub )?use (\S+?)(?:\.\{([^}]*)\})?(?: as (\S+))?$", re.M)
TOKEN = re.compile(r"\"(?:[^\"\\\n]|\\.)*\"|[A-Za-z_µ][\w'‵′]*(?:-[\w'‵′]+)*")
IN_TICKS = re.compile(r"`[^`\n]*`")
# Lemmas in snake case already, whose name a definition takes: a lemma that would have its function's name gets `_lem`.
LEMMAS = {"digit_value", "float_read", "float_value", "prefix_len"}
# A constructor and fields, which keep their name where a definition elsewhere has it too.
CONSTRUCTORS = {"c-string"}
# Rattle's own words for goals and steps in the proofs that walk the code.
MADE = re.compile(r"tie\.(?:Need|spec|close)")


def read(path):
    with open(path, encoding="utf-8", newline="") as it:
        return it.read()


def files(*patterns):
    return sorted(f for p in patterns for f in glob.glob(p, recursive=True) if "/out/" not in f)


def respelled(name):
    name = name.replace("getD", "get_or")
    if name.isupper() or re.fullmatch(r"[A-Z0-9]+(-[A-Z0-9]+)+", name):
        return name.replace("-", "_")
    parts = []
    for part in name.split("-"):
        if re.match(r"[a-z]", part):
            part = re.sub(r"(?<=[a-z0-9])([A-Z])", lambda m: "_" + m.group(1), part).lower()
        parts.append(part)
    return "_".join(parts)


def own_names(texts):
    own, library, answers = collections.defaultdict(set), set(), set()
    for f, t in texts.items():
        for m in DEFINED.finditer(t):
            if f.endswith("/Proof.antt") and MADE.match(m.group(2)):
                answers.add(m.group(1))
            else:
                own[m.group(1)].add(f)
        for rule in (FIELD, DATA):
            for m in rule.finditer(t):
                own[m.group(1)].add(f)
        for m in USE.finditer(t):
            if not m.group(1).startswith("Rattle.") or m.group(1).startswith("Rattle.std"):
                for it in (m.group(2) or "").split(","):
                    library.add(it.strip().split(" as ")[0].strip())
    return own, library, answers


def main(argv):
    if [it for it in argv if it != "--list"]:
        print(__doc__)
        return 2
    proofs = files("crates/*/specs/**/*.antt", "crates/*/proofs/**/*.antt")
    texts = {f: read(f) for f in proofs}
    own, library, answers = own_names(texts)
    new = {}
    for name in own:
        it = respelled(name)
        if it != name and name not in library and "◌" not in name:
            new[name] = it
    definitions = {it for name, it in new.items() if "-" not in name} | set(own)
    for name, it in new.items():
        if "-" in name and not name.isupper() and name not in CONSTRUCTORS and it in definitions:
            new[name] = it + "_lem"
    for name in LEMMAS:
        new[name] = name + "_lem"
    # What is spelled so already, in the same file or among the definitions.
    words = {f: set(m.group(0) for m in TOKEN.finditer(t)) for f, t in texts.items()}
    together = []
    by_new = collections.defaultdict(list)
    for name, it in new.items():
        by_new[it].append(name)
    for it, names in sorted(by_new.items()):
        if len(names) > 1:
            together.append(f"{' '.join(names)} -> {it}")
        for name in names:
            if it in own:
                both = [f for f in words if name in words[f] and it in words[f]]
                together.append(f"{name} -> {it}, which is defined in {' '.join(sorted(own[it]))}; both in {' '.join(both) or 'no file'}")
            elif any(it in words[f] and name in words[f] for f in words):
                together.append(f"{name} -> {it}, a word of {' '.join(f for f in words if it in words[f] and name in words[f])}")
    kept = sorted(n for n in own if n in library and respelled(n) != n)
    if "--list" in argv:
        for name in sorted(new):
            print(f"{name} -> {new[name]}")
        print("\n".join(["", "these fall together:", *together, "", "of the library too, and kept:", *kept]))
        return 0
    if not any(re.match("[a-z]+[A-Z]", name) for name in new):
        print("respell: no name is in camel case, so this ran before: nothing was written")
        return 1
    fields = {m.group(1) for t in texts.values() for m in FIELD.finditer(t)}
    plain = lambda m: new.get(m.group(0), m.group(0))
    in_comment = lambda m: m.group(0) if "-" in m.group(0) else plain(m)
    n = 0
    for f in proofs + files("crates/*/src/**/*.rt", "crates/*/must-fail/*.edit"):
        t = read(f)
        walked = f.endswith("/Proof.antt")
        aliases = {m.group(3) for m in USE.finditer(t) if m.group(3)}

        def swap(m):
            name, text = m.group(0), m.string
            if walked and name in answers:
                # An answer keeps its name, which is its goal's.
                return name
            if walked and m.start() and text[m.start() - 1] == "." and name not in fields:
                # A step's name is Rattle's; a lemma stands after its module.
                before = re.search(rf"({NAME})\.$", text[: m.start()])
                if not before or before.group(1) not in aliases or before.group(1) == "tie":
                    return name
            return new.get(name, name)

        lines = []
        for line in t.split("\n"):
            code, mark, comment = line, "", ""
            found = re.search(r"(?<!\S)--(?=\s|$)|(?<!:)//" if not f.endswith(".edit") else r"(?!)", line)
            if found:
                code, mark, comment = line[: found.start()], found.group(0), line[found.end() :]
                comment = IN_TICKS.sub(lambda m: TOKEN.sub(plain, m.group(0)), comment)
                comment = TOKEN.sub(in_comment, comment)
            lines.append(TOKEN.sub(swap, code) + mark + comment)
        after = "\n".join(lines)
        if after != t:
            with open(f, "w", encoding="utf-8", newline="") as out:
                out.write(after)
            n += 1
    known = set(own) | set(new.values())

    def in_a_paper(m):
        # The papers also have the names that port.py respelled in the crates.
        name = m.group(0)
        return new.get(name) or (respelled(name) if name not in own and respelled(name) in known else name)

    for f in files("README.md", "docs/**/*.md", "tests/*"):
        t = read(f)
        after = IN_TICKS.sub(lambda m: TOKEN.sub(in_a_paper, m.group(0)), t)
        if after != t:
            with open(f, "w", encoding="utf-8", newline="") as out:
                out.write(after)
            n += 1
    print(f"respell: {len(new)} names in {n} files")
    return 0


if __name__ == "__main__":
    raise SystemExit(main(sys.argv[1:]))
