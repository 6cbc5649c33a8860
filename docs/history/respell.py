#!/usr/bin/env python3
"""Brings the definitions and lemmas of this repository to snake case.

usage: python3 docs/history/respell.py [--list]     at the top of a checkout, once, behind the toolchain's own port.py

A name is turned where it is declared in specs/ or proofs/: camelCase and kebab-case become snake_case, types and modules keep
their capitals. The names of goals (those that are declared with a type `goal.NAME`) are the toolchain's and stay, and so do
names that come from the library, and the fields of a loop's record `l`. Where two names would fall together, TABLE says what
they become. The lists of words at the head of a specification are lined up again. Run again, it changes nothing.
"""

import os
import re
import sys

# names that would fall together with another: a lemma about a definition, or a definition of another crate
TABLE = {
    "actions-of": "actions_of_lem",
    "bit-and": "bit_of_and",
    "bit-or": "bit_of_or",
    "bit-xor": "bit_of_xor",
    "digits-told": "digits_told_lem",
    "digits_in": "digits_in_lem",
    "done_all": "done_all_lem",
    "is-zero": "is_zero_lem",
    "joined-text": "joined_text_lem",
    "packed-at": "packed_at_lem",
    "saved-action": "saved_action_lem",
    "slot-at": "slot_at_lem",
    "text_at": "text_at_lem",
    "then-read": "then_read_lem",
    "turned-text": "turned_text_lem",
}

# names that are bound, as by an import, and declared nowhere
BOUND = (
    "at-start byteWrong columnsNear endingMissing escapeMissing filedBy lettersUnknown readJob readRefusal readerAt rowsNear "
    "slotsOf storeRefusal takenPaper valueRefused whole-first withStored"
).split()

WORD = re.compile(r"(?<!\bl\.)(?<![^\s(){}\[\],;.\"`:«»])[^\s(){}\[\],;.\"`:«»]+")
DECLARED = re.compile(r"^\s*((?:abbrev |unfoldable |pub |opaque )*)([a-z][^\s(){}\[\],;.\"`:]*) :\s*(.*)")


def snake(name):
    name = name.replace("′", "'").replace("-", "_")
    name = re.sub(r"([a-z0-9])([A-Z])", r"\1_\2", name)
    return name.lower()


def files(*endings):
    for folder, dirs, names in os.walk("crates"):
        dirs[:] = sorted(d for d in dirs if d != "out")
        for n in sorted(names):
            if n.endswith(endings):
                yield os.path.join(folder, n)


def read(path):
    with open(path, encoding="utf-8") as f:
        return f.read()


def lined_up(text):
    """The text, with the meanings of the words at its head in one column; a word that is too long has three spaces behind it."""
    lines = text.split("\n")
    head = next((i for i, line in enumerate(lines) if not line.startswith("--")), len(lines))
    entry = re.compile(r"(-- {2,4}\S.*?)( {2,})(\S.*)")
    found = {i: m for i, m in ((i, entry.fullmatch(lines[i])) for i in range(1, head)) if m}
    if not found or not text.startswith("--"):
        return text
    under = [len(m.group(0)) for m in (re.match(r"-- {8,}(?=\S)", line) for line in lines[1:head]) if m]
    column = max(set(under), key=under.count) if under else min(m.start(3) for m in found.values())
    for i, m in found.items():
        lines[i] = m.group(1) + " " * max(column - len(m.group(1)), 3 if len(m.group(1)) + 2 > column else 2) + m.group(3)
    return "\n".join(lines)


def declared():
    """The names that this repository declares and that are not in snake case, and the goals' names."""
    own, goals = set(), set()
    for path in files(".antt"):
        for line in read(path).split("\n"):
            m = DECLARED.match(line)
            if not m or line.lstrip().startswith("--"):
                continue
            (goals if m.group(3).startswith("goal.") else own).add(m.group(2))
    return own, goals


def imported():
    """The names that files take from the library."""
    found = set()
    for path in files(".antt", ".rt"):
        for m in re.finditer(r"use (?:Rattle\.std|borrow|lib|denote|logic|mathlib|Prim|native|core|lower)\.[\w.'·-]*\{([^}]*)\}", read(path)):
            found.update(w.strip().split(" as ")[-1] for w in m.group(1).split(","))
    return found


def main():
    own, goals = declared()
    library = imported()
    turned = {}
    spelled = {snake(name) for name in own if snake(name) != name}
    for name in sorted((own | set(BOUND)) - goals - library):
        # (a name in snake case gives way only where another one becomes it)
        new = TABLE.get(name, snake(name)) if snake(name) != name or name in spelled else name
        if new != name:
            turned[name] = new
    words, functions = {}, set()
    for path in files(".antt"):
        for w in WORD.findall(read(path)):
            words[w] = words.get(w, 0) + 1
    for path in files(".rt"):
        functions.update(re.findall(r"\bfn (\w+)", read(path)))
    back = {}
    for old, new in turned.items():
        if old in words:
            back.setdefault(new, []).append(old)
    for new, olds in sorted(back.items()):
        if new in turned:
            continue
        if len(olds) > 1 or new in words:
            print("falls together: %s from %s, found %d times%s" % (new, ", ".join(olds), words.get(new, 0), ", declared" if new in own else ", function" if new in functions else ""))
    if "--list" in sys.argv:
        for old, new in sorted(turned.items()):
            print(old, new)
        return
    for path in files(".antt", ".rt"):
        text = read(path)
        if path.endswith(".antt"):
            said = WORD.sub(lambda m: turned.get(m.group(0), m.group(0)), text)
            said = lined_up(said) if "/specs/" in path else said
        else:
            said = "\n".join(
                WORD.sub(lambda m: turned.get(m.group(0), m.group(0)), line)
                if re.match(r"\s*(ghost|requires|ensures|pub ghost)\b", line) else line
                for line in text.split("\n"))
        if said != text:
            with open(path, "w", encoding="utf-8") as f:
                f.write(said)


if __name__ == "__main__":
    main()
