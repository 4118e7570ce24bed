#!/usr/bin/env python3
"""Spells the repository's own definitions and lemmas in snake case, as today's Rattle does: `addNumbers` becomes `add_numbers`, and
`fits-of` `fits_of`. Run once, at the top, after port.py.

usage: tools/respell.py [--check]

A name counts as own where a file of specs/ or of proofs/ declares it (a definition, a lemma, a field, a helper). Walks by hand
(proofs/F/Proof.antt) declare answers to goals, whose names are no own ones; what they cite turns. In a file that imports a name of
the same spelling from a library the name stays. In .rt files names turn in `ghost use` lines and in clauses, never in a string.
`--check` writes nothing, and lists the names and what they would meet.
"""

import glob
import os
import re
import sys

CRATES = {os.path.basename(d) for d in glob.glob("crates/*")}
# A word as antt cuts the text.
WORD = re.compile(r"[^\s(){}.;,@\"«»\[\]|]+")
DECLARED = re.compile(r"^( *)((?:pub |abbrev |unfoldable |pattern )*)([^\s(){}:;,.@\"]+(?: [^\s(){}:;,.@\"]+)*)(?: \{[^{}\n]*\})* :(?: |$)")
USE = re.compile(r"\buse ([^\s;{]+?)\.?(?:\{([^}]*)\})?(?: as ([^\s;]+))?(?:;|$)", re.M)
WALK = re.compile(r"/proofs/.*(Proof|Answers|Invariants)\.antt$")
# Names that a rule would spell against the library's own word.
PARTS = {"getD": "get_or"}


def spelled(name):
    """The name in snake case; capitals that stand alone, as in T-and, stay."""
    parts = []
    for part in name.split("-"):
        part = PARTS.get(part, part)
        if part[:1].islower():
            for old, new in PARTS.items():
                part = part.replace(old, new)
            part = re.sub(r"(?<=[a-z0-9₀-₉'])([A-Z])(?=[a-z]|$)", lambda m: "_" + m[1].lower(), part)
            part = re.sub(r"(?<=[a-z0-9])([A-Z]+)", lambda m: "_" + m[1].lower(), part)
        parts.append(part)
    return "_".join(parts)


def is_odd(name):
    return bool(re.search(r"[A-Za-z0-9]", name)) and (
        "-" in name.strip("-") and not name.startswith("-") or name[0].islower() and bool(re.search(r"[A-Z]", name))
    )


def files():
    antt = sorted(glob.glob("crates/*/specs/**/*.antt", recursive=True) + glob.glob("crates/*/proofs/**/*.antt", recursive=True))
    return antt, sorted(glob.glob("crates/*/src/**/*.rt", recursive=True))


def code_of(line, mark):
    """The line without its comment, and the comment."""
    if line.lstrip().startswith(mark):
        return "", line
    at = line.find(" " + mark + " ")
    return (line, "") if at < 0 else (line[:at], line[at:])


def declared(text):
    for line in text.split("\n"):
        line = code_of(line, "--")[0]
        m = DECLARED.match(line)
        if m:
            yield from m[3].split()


# The roots of the libraries' modules; any other root is a crate, or a name that the file gave one of its modules.
LIBRARIES = set("Prim base borrow contract denote lib mathlib mir native prog seplogic sound types".split())


def is_own(path):
    steps = path.split(".")
    return steps[1:2] and steps[1] in CRATES if steps[0] == "Rattle" else steps[0] not in LIBRARIES


def imported(text):
    """Names that the file has from own crates, and from libraries."""
    own, others = set(), set()
    for path, items, alias in USE.findall(text):
        names = [re.split(r" as ", it.strip())[0].strip("«» ") for it in items.split(",")] if items else [path.split(".")[-1]]
        (own if is_own(path) else others).update(names)
    return own, others


class Speller:
    def __init__(self):
        self.antt, self.rt = files()
        self.names, self.fields = set(), set()
        self.texts = {f: open(f).read() for f in self.antt + self.rt}
        for f in self.antt:
            if not WALK.search(f):
                self.names |= set(declared(self.texts[f]))
        self.rows = {n: spelled(n) for n in self.names if is_odd(n) and spelled(n) != n}
        self.words = {f: set(WORD.findall(self.code(f))) for f in self.texts}
        for old in list(self.together()):
            self.rows[old] = spelled(old) + "_lem"

    def code(self, f):
        return "\n".join(code_of(l, "--" if f.endswith("antt") else "//")[0] for l in self.texts[f].split("\n"))

    def together(self):
        """A lemma that would have the name of another name of some file that it stands in, as `act-of` beside `actOf`: it ends in _lem."""
        back = {}
        for old, new in sorted(self.rows.items()):
            back.setdefault(new, {new} & self.names).add(old)
        for new, olds in sorted(back.items()):
            if len(olds) > 1 and any(len(olds & words) > 1 for words in self.words.values()):
                kept = sorted(olds, key=lambda o: ("-" in o, o == new, o))[0]
                yield from sorted(olds - {kept})

    def turned(self, code, stay):
        out, at = [], 0
        for m in WORD.finditer(code):
            word = m[0]
            prefix = code[max(0, m.start() - 1):m.start()]
            new = self.rows.get(word)
            if new and word not in stay and not (prefix == "." and self.generated(code, m.start(), m.end())):
                out.append(code[at:m.start()] + new)
                at = m.end()
        return "".join(out) + code[at:]

    def generated(self, code, at, end):
        """A field behind a path that begins at a place of a walk, as c.before.relation-line; and a module's step of a path."""
        start = at
        while start > 0 and not re.match(r"[\s(){};,@]", code[start - 1]):
            start -= 1
        head = code[start:at].split(".")[0]
        if head == "Rattle" or head in CRATES:
            return code[end:end + 1] == "."
        return self.walk

    def file(self, f):
        text = self.texts[f]
        own, others = imported(text)
        stay = (others - own) if others else set()
        self.walk = bool(WALK.search(f))
        if f.endswith(".rt"):
            return self.rust(text, stay | {n for n in self.rows if not is_odd(n)})
        lines = []
        for line in text.split("\n"):
            code, comment = code_of(line, "--")
            lines.append(self.strings(code, stay) + self.comment(comment, stay))
        return "\n".join(lines)

    def strings(self, code, stay):
        parts = re.split(r'("(?:[^"\\]|\\.)*")', code)
        return "".join(p if i % 2 else self.turned(p, stay) for i, p in enumerate(parts))

    def comment(self, text, stay):
        """In a comment, a name with a capital inside turns, and one with a dash in a code span."""
        def word(m):
            return self.rows[m[0]] if m[0] in self.rows and "-" not in m[0] and m[0] not in stay else m[0]
        text = WORD.sub(word, text)
        return re.sub(r"`[^`]*`", lambda m: WORD.sub(lambda w: self.rows.get(w[0], w[0]) if w[0] not in stay else w[0], m[0]), text)

    def rust(self, text, stay):
        out, clause = [], 0
        for line in text.split("\n"):
            code, comment = code_of(line, "//")
            begins = re.match(r"\s*(?:pub )?(?:ghost use |ghost\b|requires|ensures|also_)", code)
            if clause or begins:
                code = self.strings(code, stay)
                clause += code.count("{") - code.count("}")
            out.append(code + self.comment(comment, stay))
        return "\n".join(out)

    def look(self):
        """Words of a file that a turned name would meet."""
        for f, words in self.words.items():
            for old in sorted(words & set(self.rows)):
                if self.rows[old] in words and (self.rows[old] not in self.names or f.endswith("antt")):
                    yield f"{f}: {old} meets {self.rows[old]}"


def aliases(text):
    """A name in guillemets, as `count as «count-of»`: it is the file's own."""
    return re.sub(r"«([^»\n]*)»", lambda m: f"«{spelled(m[1])}»", text)


def main(argv):
    it = Speller()
    said = list(it.look())
    if "--check" in argv:
        print("\n".join(said + sorted(f"{o} -> {n}" for o, n in it.rows.items())))
        print(f"{len(it.rows)} names, {len(said)} places to look at")
        return 0
    for f in it.antt + it.rt:
        new = aliases(it.file(f))
        if new != it.texts[f]:
            with open(f, "w") as out:
                out.write(new)
    print(f"{len(it.rows)} names turned")
    return 0


if __name__ == "__main__":
    sys.exit(main(sys.argv[1:]))
