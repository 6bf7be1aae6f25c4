#!/usr/bin/env python3
"""Respells the names of definitions, theorems and lemmas: words in snake case, facts and types in upper camel case.

usage: python3 tools/respell.py [--check] [FOLDER]     FOLDER: a repository with crates/, else the one that this file is in

A name is turned if it has a dash and a file of specs/ or proofs/ declares it (also inside another proof, as a field or a constructor, or by
a `let`), or a file of lemmas uses it for a value of its own. So Core-numbers becomes CoreNumbers, and in-core becomes in_core. Names of the
kit stay as they are, and so do names that the check makes (goals, loops, branches), unless a name of some crate is spelled alike: read the
diff of Answers.antt for those. Turned are .antt files, .rt files (whose ghost text alone has such names), must-fail edits, and names in
backquotes in docs/. Comments and strings stay. With --check nothing is written, and the names are listed.
Names that would fall together with another name in use are printed, and nothing is written.
"""

import os
import re
import sys

WORD = r"[^\s(){}\[\],;:.@⌜⌝`\"]+"
# names that would fall together with the name of a function in a path, or that may have it (a field)
ALONE = {"first-line": "first_line_lem", "rightful-at-each-place": "rightful_at_each_place_lem", "never-fall": "never_fall"}
NAME = re.compile(r"[A-Za-z](?:[\w']|-(?=[\w']))*")
DECLARED = re.compile(r"^\s*(?:(?:pub|abbrev|unfoldable|data|record|ruleset)\s+)*(" + WORD + r")((?:\s+[({].*?[)}])*)\s*:(?=\s)\s*(.*)$")
LET = re.compile(r"\blet\s+(" + WORD + r")\s*[:=]")
USE = re.compile(r"^\s*(?:pub\s+|ghost\s+)*use\s+([\w.·'-]+)\.\{([^}]*)\}")


def files(root, under, ends):
    for folder, dirs, names in os.walk(os.path.join(root, under)):
        dirs[:] = sorted(d for d in dirs if d not in ("out", ".git"))
        for n in sorted(names):
            if n.endswith(ends):
                yield os.path.join(folder, n)


def read(path):
    with open(path, encoding="utf-8") as f:
        return f.read()


def code(line):
    """A line of antt without its comment."""
    return re.split(r"(?:^|\s)--(?:\s|$)", line)[0]


def own_module(module, crates):
    parts = re.split(r"[.·]", module)
    return parts[0] == "Rattle" and len(parts) > 1 and parts[1] in crates


def collect(root):
    """The names that the repository declares, and the names that it takes from the kit or that the check makes."""
    crates = set(os.listdir(os.path.join(root, "crates")))
    own, kept, used = set(), set(), set()
    for path in files(root, "crates", (".antt", ".rt")):
        # a file of lemmas cites no name that the check makes
        generated = os.path.basename(path) in ("Answers.antt", "Invariants.antt", "Choices.antt", "Proof.antt")
        for line in read(path).split("\n"):
            line = code(line)
            use = USE.match(line)
            if use:
                names = {w.split(" as ")[-1].strip() for w in use[2].split(",")}
                if own_module(use[1], crates):
                    own |= {w.split(" as ")[1].strip() for w in use[2].split(",") if " as " in w}
                else:
                    kept |= names
                continue
            if path.endswith(".rt"):
                continue
            used |= set(NAME.findall(line))
            if not generated:
                own |= {m[0] for m in NAME.finditer(line) if "-" in m[0] and line[m.start() - 1 : m.start()] != "."}
            at = DECLARED.match(line)
            if at:
                (kept if re.match(r"\w+\.", at[3]) and at[3].startswith(("goal.", "need.", "given.")) else own).add(at[1])
            own |= set(LET.findall(line))
    return {n for n in own if NAME.fullmatch(n)}, kept, used


def turned(name):
    if "-" not in name:
        return name
    if name in ALONE:
        return ALONE[name]
    parts = name.split("-")
    if name[0].isupper():
        return "".join(p[:1].upper() + p[1:] for p in parts)
    return "_".join(parts)


def table(root):
    own, kept, used = collect(root)
    names = {n: turned(n) for n in own if "-" in n and n not in kept}
    stay = (own | kept | used) - set(names)
    clash = sorted(n for n, to in names.items() if to in stay and n not in ALONE)
    back = {}
    for n, to in names.items():
        back.setdefault(to, []).append(n)
    clash += sorted(" and ".join(v) for v in back.values() if len(v) > 1)
    return names, clash


def words(text, names):
    return NAME.sub(lambda m: names.get(m[0], m[0]), text)


def antt(text, names):
    out = []
    for line in text.split("\n"):
        body = code(line)
        out.append(words(body, names) + line[len(body):])
    return "\n".join(out)


def rattle(text, names):
    """Outside comments and strings."""
    part = re.compile(r"//[^\n]*|\"(?:\\.|[^\"\\])*\"", re.S)
    out, at = [], 0
    for m in part.finditer(text):
        out += [words(text[at : m.start()], names), m[0]]
        at = m.end()
    return "".join(out + [words(text[at:], names)])


def main(argv):
    check = "--check" in argv
    rest = [a for a in argv if a != "--check"]
    root = rest[0] if rest else os.path.dirname(os.path.dirname(os.path.realpath(__file__)))
    names, clash = table(root)
    if check:
        for n in sorted(names):
            print(n, names[n])
    if clash:
        print("these fall together with other names: " + ", ".join(clash), file=sys.stderr)
        return 1
    if check:
        return 0
    turns = [(".antt", antt), (".rt", rattle), (".edit", antt)]
    changed = 0
    for ends, turn in turns:
        for path in files(root, "crates", ends):
            old = read(path)
            new = turn(old, names)
            if new != old:
                changed += 1
                with open(path, "w", encoding="utf-8") as f:
                    f.write(new)
    for path in files(root, "docs", ".md"):
        old = read(path)
        new = re.sub(r"`[^`\n]*`", lambda m: words(m[0], names), old)
        if new != old:
            changed += 1
            with open(path, "w", encoding="utf-8") as f:
                f.write(new)
    print(f"{len(names)} names, {changed} files")
    return 0


if __name__ == "__main__":
    raise SystemExit(main(sys.argv[1:]))
