#!/usr/bin/env python3
"""Gives the repository's own definitions and lemmas today's spelling: words in snake case.

usage: python3 tools/respell.py [--list]     at the top of the repository, once, after port.py

What is renamed, in crates/*/specs, crates/*/proofs and the clauses of crates/*/src:
- each word in lower camel case (`placeFor` is `place_for`); types, facts and variants keep their capital;
- each definition, lemma, field and constructor of the repository's own whose words are joined by dashes (`at-one-reads` is `at_one_reads`), and
  each name that an import gives with `as`. Names that Rattle makes (`loop-i-preserved`, `in-Ok-found`) keep their dashes.
Functions, strings and comments of src/ and all modules keep their names. --list prints the names, and writes nothing.
"""
import os
import re
import sys

TOKEN = re.compile(r"(?<![\w'\-])[A-Za-z][\w']*(?:-[\w'+∷*]+)*")
DECLARED = re.compile(r"^(\s*)(?:(?:abbrev|unfoldable|pub|record|data) )*([A-Za-z][^\s:(){}.;,]*)((?: |$).*)$")
FIELD = re.compile(r"^\s+(?:pub )?([a-z][^\s:(){}.;,]*) :")
MADE = re.compile(r"(invariant|decreases|loop)-")
ALIAS = re.compile(r"\bas ([A-Za-z][\w'-]*)")
# a function that the library knows by another name now
LIBRARY = {"getD": "get_or"}
# names that would fall together: a lemma that would have its definition's name ends in _lem
CHOSEN = {name: name.replace("-", "_") + "_lem" for name in ("below-bar", "coming-up", "free-place", "has-from", "is-version", "last-used", "no-bar", "number-again", "on-drive", "on-drives", "one-version", "own-place", "piece-of", "record-room", "write-at")}
CHOSEN |= {"how-many-" + word: "how_many_in_" + word for word in ("none", "more", "same", "few")}
CHOSEN["Their-Worked"] = "TheirWorked"
# the same of lemmas that port.py respelled, in the crates that have them
CHOSEN_IN = {"recovery": {name: name + "_lem" for name in ("as_read", "all_have", "same_number", "settled_on")}, "slots": {"has_room": "has_room_lem"}}


def files(*kinds):
    for folder, dirs, names in os.walk("crates"):
        dirs[:] = sorted(d for d in dirs if d != "out")
        for name in sorted(names):
            path = os.path.join(folder, name)
            if path.split(os.sep)[2] in kinds and name.endswith((".antt", ".rt")):
                yield path


def code(line, mark):
    """A line without the comment at its end, and that comment."""
    at = line.find(mark)
    if at < 0 or (at > 0 and line[at - 1] not in " \t"):
        return line, ""
    return line[:at], line[at:]


def is_answer(path, rest):
    return os.path.basename(path) in ("Answers.antt", "Invariants.antt", "Proof.antt") and re.search(r": (goal|need|given)\.", rest)


def own_names():
    """The names that the repository declares with the aliases of its imports, and those of its fields alone."""
    found, fields = set(), set()
    for path in files("specs", "proofs"):
        with open(path, encoding="utf-8") as f:
            for line in f:
                line, _ = code(line.rstrip("\n"), "--")
                if line.startswith(("use ", "pub use ", "mod ", "pub mod ", "open ", "unfolding ")):
                    found.update(ALIAS.findall(line))
                    continue
                m = DECLARED.match(line)
                if m and not m.group(1) and (":" in m.group(3) or not m.group(3)) and not is_answer(path, m.group(3)):
                    found.add(m.group(2))
                m = FIELD.match(line)
                if m:
                    found.add(m.group(1))
                    fields.add(m.group(1))
    for path in files("src"):
        with open(path, encoding="utf-8") as f:
            for line in f:
                if line.startswith("ghost use "):
                    found.update(ALIAS.findall(line))
    return {name for name in found if not MADE.match(name)}, fields


def library_names(text):
    """The names that a file has from the library: one of the repository's own may be spelled alike."""
    found = set()
    for line in text.split("\n"):
        m = re.match(r"(?:pub |ghost )?use (?:Rattle\.std|borrow|lib|mathlib|Prim|logic)\b[\w.]*\.\{(.*)\}", line)
        if m:
            found.update(name.split(" as ")[0] for name in re.split(r"\s*,\s*", m.group(1)))
    return found


def hump(part):
    """placeFor: place_for; a part that begins with a capital names a type or a variant and stays."""
    if part in LIBRARY:
        return LIBRARY[part]
    if not part[0].islower():
        return part
    return re.sub(r"(?<=[a-z0-9'₀-₉])([A-Z])", lambda m: "_" + m.group(1).lower(), part)


def respelled(name, own, fields, crate, is_field):
    """A name's new spelling; after a dot only a field's name is the repository's own."""
    if not is_field and name in CHOSEN_IN.get(crate, {}):
        return CHOSEN_IN[crate][name]
    if not is_field and name in CHOSEN:
        return CHOSEN[name]
    parts = [hump(p) for p in name.split("-")]
    if name not in (fields if is_field else own):
        return "-".join(parts)
    text = parts[0]
    for p in parts[1:]:
        text += ("_" if re.match(r"\w", p) else "-") + p
    # an alias such as Read-of
    return text[0].lower() + text[1:] if re.match(r"[A-Z][a-z]*_of$", text) else text


class Speller:
    """Turns the text of one crate's files, and remembers what it renamed."""

    def __init__(self):
        self.own, self.fields = own_names()
        self.seen = {}
        self.crate = ""
        self.library = set()
        self.modules = set()

    def turn(self, text):
        def one(m):
            old = m.group(0)
            if old in self.library:
                return old
            owner = re.search(r"([A-Za-z][\w'-]*)\.$", text[: m.start()])
            is_field = m.start() > 0 and text[m.start() - 1] == "." and not (owner and owner.group(1) in self.modules)
            new = respelled(old, self.own, self.fields, self.crate, is_field)
            if new != old:
                self.seen.setdefault(old, set()).add(new)
            return new

        return TOKEN.sub(one, text)

    def antt(self, text):
        return "\n".join(self.turn(line) for line in text.split("\n"))

    def rt(self, text):
        """Only the imports of clauses, the clauses and ghost members are turned: what stands between their braces."""
        out, depth = [], 0
        for line in text.split("\n"):
            if depth == 0 and not re.match(r"\s*(ghost |requires|ensures|also_)", line):
                out.append(line)
                continue
            clause, comment = code(line, "//")
            out.append(self.turn(clause) + comment)
            if not line.startswith("ghost use "):
                depth += line.count("{") - line.count("}")
        return "\n".join(out)


def main(argv):
    speller, changes = Speller(), []
    if not any(hump(name) != name for name in speller.own):
        print("respell: every name is in today's spelling already")
        return 1
    for path in files("specs", "proofs", "src"):
        with open(path, encoding="utf-8") as f:
            text = f.read()
        speller.crate = path.split(os.sep)[1]
        speller.library = library_names(text)
        speller.modules = set(re.findall(r"^use [\w.+]+ as (\w+)$", text, re.M)) - {"goal", "given"}
        new = speller.antt(text) if path.endswith(".antt") else speller.rt(text)
        if new != text:
            changes.append((path, new))
    together = {}
    for old, news in speller.seen.items():
        for new in news:
            together.setdefault(new, set()).add(old)
    for new in sorted(together):
        if len(together[new]) > 1:
            print("fall together: " + ", ".join(sorted(together[new])) + " -> " + new)
    if "--list" in argv:
        for old in sorted(speller.seen):
            print(old + " -> " + ", ".join(sorted(speller.seen[old])))
        return 0
    for path, new in changes:
        with open(path, "w", encoding="utf-8") as f:
            f.write(new)
    print(f"respell: {len(speller.seen)} names in {len(changes)} files")
    return 0


if __name__ == "__main__":
    raise SystemExit(main(sys.argv[1:]))
