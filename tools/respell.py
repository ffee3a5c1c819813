#!/usr/bin/env python3
"""Brings the names of the crates' own definitions, lemmas and fields to snake case, as recordNo to record_no and levels-low to levels_low.

usage: python3 tools/respell.py [--table] [FOLDER]     FOLDER: a repository (default: this one)

A name counts if specs/ or proofs/ declares it, begins with a small letter, and has a capital or a dash. It turns wherever it stands as a whole word: in every
.antt, .rt and .edit file, in code and in comments. Goals' names, which the kit makes, stay: a function's proof declares them at a type `tie.X` or `goal.X`. --table prints
the table and writes nothing; names that would fall together with one that is there stop it.
"""
import os
import re
import sys

WORD = re.compile(r'[^\s(){}.;,@"«»`\[\]]+')
DECLARED = re.compile(r"^(?P<in> *)(?:(?:abbrev|unfoldable|private) )*(?:pub )?(?:(?:record|data|ruleset) )?(?P<name>[^\s(){}.;,@\"«»`\[\]:]+)(?= .*:(?: |$)| :)")
ALIAS = re.compile(r"^(?=use ).* as ([a-z][^\s(){}.;,]*)$")
GOAL = re.compile(r"^(returns|loop|invariant|decreases|add|sub|mul|cast|same-length|part|slice|shared-slice|enum)-|-requires(-\d+)?$")
# lemmas that would have the name of what they are about, or of a word of the kit's
LEMMAS = """flags-at frame-by frame-left height-at is-bit is-nat is-quarter is-record is-stored most-pitch packed-word reduced-apart source-need vertical-rows
in-turn same-numbers width-at slice-val no_record part_bytes""".split()


def snake(name):
    if not name[0].islower() or "◌" in name:
        return name
    s = re.sub(r"(?<=[a-z0-9])(?=[A-Z])|(?<=[A-Z])(?=[A-Z][a-z])", "_", name).replace("-", "_")
    return re.sub(r"_+", "_", s).lower()


def files(top, *ends):
    for folder, dirs, names in os.walk(os.path.join(top, "crates")):
        dirs[:] = sorted(d for d in dirs if d != "out")
        for n in sorted(names):
            if n.endswith(ends):
                yield os.path.join(folder, n)


def declared(top):
    """The names that specs/ and the files right in proofs/ declare."""
    found = {}
    for path in files(top, ".antt"):
        parts = os.path.relpath(path, os.path.join(top, "crates")).split(os.sep)
        shallow = len(parts) == 3
        with open(path, encoding="utf-8") as f:
            for line in f:
                for name in ALIAS.findall(line) if shallow else ():
                    found.setdefault(name, set()).add(os.path.join(*parts))
                if line.lstrip().startswith(("--", "use ", "pub mod", "mod ", "infix")):
                    continue
                m = DECLARED.match(line)
                if m:
                    if shallow or not m["in"] and not GOAL.search(m["name"]) and ": tie." not in line and ": goal." not in line:
                        found.setdefault(m["name"], set()).add(os.path.join(*parts))
    return found


def is_lemma(text, m):
    """A name in snake case may be a function's too: it is the lemma's where it is neither called nor a step of a walk."""
    return text[m.start() - 1 : m.start()] != "." and text[m.end() : m.end() + 1] != "("


def main(argv):
    only = "--table" in argv
    rest = [a for a in argv if a != "--table"]
    top = rest[0] if rest else os.path.dirname(os.path.dirname(os.path.abspath(__file__)))
    own = declared(top)
    table = {n: snake(n) + "_lem" * (n in LEMMAS) for n in own}
    table = {a: b for a, b in table.items() if a != b}
    new = {}
    for a, b in table.items():
        new.setdefault(b, []).append(a)
    bad = [f"{b}: {', '.join(sorted(a))}" for b, a in sorted(new.items()) if len(a) > 1]
    bad += [f"{b}: {new[b][0]}, and {b} in {', '.join(sorted(own[b]))}" for b in sorted(new) if b in own and b not in table]
    if only:
        print("\n".join(f"{a}\t{b}" for a, b in sorted(table.items())))
    if bad:
        print("fall together:\n" + "\n".join(bad), file=sys.stderr)
        if not only:
            return 1
    if only:
        return 0
    for path in files(top, ".antt", ".rt", ".edit"):
        with open(path, encoding="utf-8") as f:
            text = f.read()
        turned = WORD.sub(lambda m: table.get(m[0], m[0]) if snake(m[0]) != m[0] or is_lemma(text, m) else m[0], text)
        if turned != text:
            with open(path, "w", encoding="utf-8") as f:
                f.write(turned)
    print(f"{len(table)} names")
    return 0


if __name__ == "__main__":
    sys.exit(main(sys.argv[1:]))
