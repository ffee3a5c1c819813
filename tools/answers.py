#!/usr/bin/env python3
"""Turns proof files of the older kit, proofs/F/Proof.antt by `tie`, to today's: invariants, and answers for the goals that the check leaves open.

usage: python3 tools/answers.py CRATE..     at the top, after port.py and tools/respell.py; a crate's src/ has to compile, and the crates below it to prove

For each crate: the kit tells each goal's old and new name (`rt check --generated .. --old-names`); Proof.antt becomes Invariants.antt, where it has any; `rt check`
says which goals are open; Answers.antt gets the old proof of each of those, and a second check says what is left, for a hand. Printed is what could not be turned.
An old proof walks back from a place of the code by `.before`; today's `c` has every step as a field of its own. A lemma at such a place, a helper, becomes a `let`.
"""
import json
import os
import re
import subprocess
import sys

ID = r"[^\s(){}.;,@\"«»`\[\]]+"
PATH = rf"(?:{ID}\.)+"
HEAD = r"(?<![^\s(){};,\[\]])"
TAIL = r"(?=[\s.(){};,\[\]]|$)"
ATOM = rf"(?:{ID}(?:\.{ID})*|\((?:[^()]|\([^()]*\))*\))"
OPEN = re.compile(r"fn \S+: (?:no proof|not proved): expected answers in \./proofs/(\S+)/Answers\.antt; `search` did not prove ([^\n;:]*)")
FIELDS = ("result", "ensures", "given", "new", "was", "requires", "true", "false")
VALUES = ("args", "ranges", "new")


def dashed(name):
    return name.replace("_", "-")


def goal_key(name):
    return dashed(re.sub(r"^overflow[-_]", "", name))


def renamed(text, old, new):
    return re.sub(HEAD + re.escape(old) + TAIL, lambda m: new, text)


class Declared:
    """A declaration of a proof file: its name, type, `unfolding` words, parameters and right side."""

    def __init__(self, lines):
        lines = [l for l in lines if not l.startswith("--")]
        m = re.match(rf"^(?:(?:abbrev|unfoldable) )?(?:pub )?({ID}) :(?: |$)", lines[0]) if lines else None
        self.name = m and m[1]
        if not m:
            return
        own = re.compile(re.escape(self.name) + r"(?= |$)")
        k = next((k for k, l in enumerate(lines) if k and (l.startswith("unfolding ") or own.match(l))), len(lines))
        self.type = " ".join([lines[0][m.end():]] + [l.strip() for l in lines[1:k]]).strip()
        self.unfolding = []
        while k < len(lines) and lines[k].startswith("unfolding "):
            self.unfolding += lines[k].split()[1:]
            k += 1
        body = "\n".join(lines[k:])
        m = re.match(re.escape(self.name) + rf"((?: {ID})*?) =\s*", body)
        self.params, self.right = (m[1].split(), body[m.end():].strip()) if m else ([], None)


class Names:
    """What the kit tells of a function: its goals, steps, arms, loops and callees, old names and new."""

    def __init__(self, told, words):
        self.words = words
        self.steps, self.facts, self.params = {}, {}, {}
        for _, _, (old, new), callee, facts in told["places"]:
            if not old:
                continue
            self.steps.setdefault(dashed(old), new)
            self.facts.setdefault(new, {}).update(dict(facts))
            if callee:
                self.params.setdefault(new, told["params"].get(callee))
        self.arms = {(dashed(step), tuple(path)): (arm[0], field) for arm in told["arms"] if arm for field, step, path in arm[2] if path}
        self.loops = {dashed(old): (new, known, changed) for ((old, new), known), changed in zip(told["loops"], told["changed"])}
        self.goals = {goal_key(old): new for old, new in told["needs"]}
        for _, new in told["needs"]:
            self.goals.setdefault(goal_key(new), new)

    def path(self, parts, before, goal):
        """A dotted path by today's names. `before`: the step or the values that its first part stands for."""
        out, prev, step, k = [parts[0]], before, None, 0
        while k + 1 < len(parts):
            k += 1
            part, rest = parts[k], parts[k + 1:]
            if part == "before":
                continue
            arm = next((n for n in (3, 2, 1) if prev not in VALUES and (dashed(part), tuple(rest[:n])) in self.arms), 0)
            if arm:
                out += self.arms[dashed(part), tuple(rest[:arm])]
                k, prev, step = k + arm, "", None
                continue
            if step in self.facts and part in self.facts[step]:
                out.append(self.facts[step][part])
                prev, step = part, None
                continue
            step = None
            of_match = re.search(r"in_default|in-[^-]+", goal) if part == "match" and prev != "args" else None
            if of_match:
                out += [of_match[0], of_match[0] + "-own"]
                prev = ""
                continue
            if part.endswith("_lem") and dashed(part[:-4]) in self.steps:
                part = part[:-4]
            new = self.steps.get(dashed(part)) if prev not in VALUES else None
            if new and (new != part + "-1" or rest[:1] and rest[0] in FIELDS):
                step = prev = new
                out.append(new)
                continue
            ones = next((n for n, p in enumerate(rest) if p != "1"), len(rest))
            if part in ("new", "auto") and self.params.get(prev) and rest[ones:ones + 1] == ["0"]:
                out += [part, self.params[prev][ones]]
                k, prev = k + ones + 1, ""
                continue
            prev = part.replace("-", "_") if "-" in part and part.replace("-", "_") in self.words else part
            out.append(prev)
        return ".".join(out)

    def text(self, s, goal=""):
        stands = {m[1]: "args" for m in re.finditer(rf"let ({ID}) = {PATH}args in", s)}
        for m in re.finditer(rf"let ({ID}) = {PATH}({ID}) in", s):
            step = self.steps.get(dashed(m[2]))
            if step and self.params.get(step):
                stands[m[1]] = step
        s = re.sub(HEAD + rf"{ID}(?:\.{ID})+", lambda m: self.path(m[0].split("."), stands.get(m[0].split(".")[0], ""), goal), s)
        # what a callee ensures of an arm's value is the arm's own
        return re.sub(rf"sym \(ap (?:{ID}|\([^()]*\)) ({PATH})is\) ∙ {PATH}ensures", r"\1ensures", s)


def invariant(d, names, bad):
    m = re.match(r"tie\.(invariant|decreases)-?(\S*)", d.type)
    new, known, changed = names.loops.get(dashed(m[2]), (m[2], [], []))
    now = [("l.initial." if c else "l.") + v for v, c in zip(known, changed)] + ["l." + v for v, c in zip(known, changed) if c]
    if len(now) != len(d.params):
        bad.append(f"parameters of {d.name}: {d.params}, {now}")
        now = ["l." + ("initial." + p[:-1] if p.endswith("₀") else p).replace("-", "_") for p in d.params]
    right, by_name = d.right, dict(zip(d.params, now))
    right = re.sub(HEAD + ID, lambda m: by_name.get(m[0], m[0]), right)
    name = f"{m[1]}-{new}"
    return f"abbrev pub {name} : goal.{name}\n" + "".join(f"unfolding {u}\n" for u in [" ".join(d.unfolding)] if u) + f"{name} l = {right}\n"


def helper(d, names):
    m = re.match(rf"\(({ID}) : tie\.{ID}[^)]*\)\s*(?:→\s*)?(.*)$", d.type, re.S)
    if not m or not d.params:
        return None
    right = renamed(d.right, d.params[0], "c")
    more = f"λ {' '.join(d.params[1:])}. " if d.params[1:] else ""
    return names.text(renamed(m[2], m[1], "c")), more + names.text(right), d.unfolding


def called(s, helpers):
    """The text with helpers named where they were called, and which these are."""
    found = []
    for h in helpers:
        s, n = re.subn(HEAD + re.escape(h) + " +" + ATOM, h, s)
        found += [h] * (n > 0)
    return s, found


def answer(d, names, helpers, bad):
    label = re.match(r"tie\.Need-(\S+)", d.type)[1]
    new = names.goals.get(goal_key(label))
    if not new or d.right is None:
        bad.append(f"no goal for {label}")
        return None
    params = [p for p in d.params if p != "κs"]
    right = renamed(d.right, params[-1], "c") if params and params[-1] != "c" else d.right
    for m in list(re.finditer(rf"let ({ID}) = ({PATH}given) in\s*", right)):
        right = re.sub(HEAD + re.escape(m[1]) + r"\.(?=[01])", m[2] + ".", right.replace(m[0], ""))
    right, uses = called(names.text(right, new), helpers)
    needed = []

    def need(h):
        for other in helpers[h][3]:
            need(other)
        if h not in needed:
            needed.append(h)

    for h in uses:
        need(h)
    for h in reversed(needed):
        right = f"let {h} : {helpers[h][0]} = {helpers[h][1]} in\n    {right}"
    # a name for `c` alone, bound once, says nothing
    for a in re.findall(rf"let ({ID}) = c in", right):
        if len(re.findall(rf"let {re.escape(a)} (?:=|:)", right)) == 1:
            right = renamed(re.sub(rf"let {re.escape(a)} = c in\s*", "", right), a, "c")
    words = d.unfolding + [u for h in needed for u in helpers[h][2] if u not in d.unfolding]
    return new, f"pub {new} : goal.{new}\n" + (f"unfolding {' '.join(words)}\n" if words else "") + f"{new} c = {right}\n"


def turned(path, told, words, module):
    """Invariants.antt, and what Answers.antt is made of: its head, lemmas and answers."""
    with open(path, encoding="utf-8") as f:
        blocks = [b.split("\n") for b in re.split(r"\n\s*\n", f.read().strip("\n"))]
    names, bad, lemmas, answers, helpers, invariants, head = Names(told, words), [], [], {}, {}, [], []
    declared = []
    for b in blocks:
        if all(l.startswith(("use ", "--")) for l in b):
            head += b
            continue
        d = Declared(b)
        if not d.name or b[0].startswith(" ") or "tie." not in d.type:
            if "tie." in "\n".join(b) and not (d.name and d.name.endswith(("_spec", "-spec"))):
                bad.append("\n".join(b))
            elif not (d.name and "statement" in d.type):
                lemmas.append("\n".join(b) + "\n")
        elif re.match(r"tie\.(invariant|decreases)", d.type):
            invariants.append(invariant(d, names, bad))
        elif d.type.startswith("tie.Need-"):
            declared.append(d)
        else:
            made = helper(d, names)
            if made:
                helpers[d.name] = made
            else:
                bad.append("\n".join(b))
    for h, (kind, right, unfolding) in list(helpers.items()):
        kind, a = called(kind, helpers)
        right, b = called(right, helpers)
        helpers[h] = kind, right, unfolding, [x for x in a + b if x != h]
    for d in declared:
        made = answer(d, names, helpers, bad)
        if made:
            answers.setdefault(*made)
    said = "".join(l + "\n" for l in head if l.startswith("--"))
    used = "".join(l + "\n" for l in head if l.startswith("use ") and not re.search(r"\.(Statement|Tie|Met)[.\s]", l))
    first = said + used + f"use {module}.Given as goal\n\n" + "\n".join(invariants) if invariants else None
    return first, (("" if first else said) + used + f"use {module}.Goals as goal\n\n" + "".join(l + "\n" for l in lemmas), answers), bad


def rt(crate, *words):
    return subprocess.run(["rt", *words], cwd=os.path.join("crates", crate), capture_output=True, text=True, errors="replace").stdout


def run(crate):
    proofs, words, kept = os.path.join("crates", crate, "proofs"), set(), {}
    room = os.path.abspath(os.path.join("target", "answers", crate))
    os.makedirs(room, exist_ok=True)
    rt(crate, "check", "--generated", room, "--old-names")
    with open(os.path.join(room, "names.json"), encoding="utf-8") as f:
        told = json.load(f)
    for folder, _, files in os.walk(os.path.join("crates", crate, "src")):
        for file in files:
            with open(os.path.join(folder, file), encoding="utf-8") as f:
                words |= set(re.findall(r"\w+", f.read()))
    for folder, _, files in sorted(os.walk(proofs)):
        if "Proof.antt" not in files:
            continue
        path, of = os.path.join(folder, "Proof.antt"), os.path.relpath(folder, proofs)
        key = f"Rattle-{crate}-proofs.{of.replace('/', '.')}.Lts"
        if key not in told:
            print(f"{of}: left, a walk or a recursion")
            continue
        first, kept[of], bad = turned(path, told[key], words, f"Rattle.{crate}.proofs.{of.replace('/', '.')}")
        for b in bad:
            print(f"{of}: {b}")
        if first:
            with open(os.path.join(folder, "Invariants.antt"), "w", encoding="utf-8") as f:
                f.write(first)
        os.remove(path)
    for _ in range(2):
        for of, goals in OPEN.findall(rt(crate, "check")):
            head, answers = kept.get(of, ("", {}))
            path = os.path.join(proofs, of, "Answers.antt")
            if os.path.exists(path):
                with open(path, encoding="utf-8") as f:
                    head = f.read() + "\n"
            texts = [answers[g] for g in re.findall(r"`([^`]+)`", goals) if g in answers and f"\npub {g} :" not in head]
            if texts:
                with open(path, "w", encoding="utf-8") as f:
                    f.write(head + "\n".join(texts))
    said = rt(crate, "check")
    print("\n".join(l for l in said.splitlines() if re.match(r"(\./|fn .*: n|logic=)", l)))


if __name__ == "__main__":
    for name in sys.argv[1:]:
        run(name)
