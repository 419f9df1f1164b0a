#!/usr/bin/env python3
"""Brings the names of the repository's own definitions and lemmas to one spelling: words in snake case, a dash between two names.

usage: python3 tools/spell.py        at the top, once, after the scripts that turn an older Rattle's spelling
       python3 tools/spell.py table  prints each old name and the new one, and writes nothing

A definition, a constructor or a field in specs/ and a record's field in proofs/ is in snake case throughout. In the name of a lemma a dash stays
where it joins two names that stand for things (definitions, fields, functions, list words), and is `_` before or after a plain word.
Functions of src/, exported names, strings, inputs and outputs keep their names. It stops, and writes nothing, where two names would fall together.
"""

import glob
import re
import sys

TOKEN = re.compile(r"[^\s(){}\[\];,.@`«»]+")
SIGNATURE = re.compile(r"^(?:abbrev |unfoldable )?(?:pub )?(?:data |record )?(?:abbrev |unfoldable )?([^\s:(){}]+)\s*(?:[({][^=]*)?:")
FIELD = re.compile(r"^  (?:pub )?([^\s:(){}]+)\s*:")
LOCAL = re.compile(r"^\s+(?:let |pub )?([^\s:(){}]+) : ")
OTHER = ("--", "use ", "pub use ", "pub mod", "mod ", "infix", "ruleset", "pub ruleset", "open", "unfolding", "  ", "\n")
# Words of lists and numbers that the library's lemmas join with a dash.
WORDS = {"length", "append", "map", "take", "drop", "set", "filter", "sum", "get_or", "true", "false", "and", "or", "not", "plus", "minus", "le", "lt"}

# A lemma of the library of this name is used in some files, and a definition of ours in others; no file has both.
LIBRARY = {"take_at"}
# Two definitions would fall together: the words of a setup's units in a host's memory, and the units of a slot.
APART = {"units-at": "units_place"}


def definitions():
    """Each name with where it stands: S for specs/, P for proofs/, f behind it for a record's field, L for a name that is local in proofs/."""
    found = {}
    for path in sorted(glob.glob("crates/*/specs/**/*.antt", recursive=True) + glob.glob("crates/*/proofs/**/*.antt", recursive=True)):
        if path.endswith(("/Proof.antt", "/Lib.antt")):
            continue
        kind = "S" if "/specs/" in path else "P"
        inside = False
        for line in open(path, encoding="utf-8"):
            if re.match(r"^(abbrev |pub )*(record|data) ", line):
                inside = True
            elif not line.startswith(("  ", "\n", "--")):
                inside = False
            if inside and (m := FIELD.match(line)):
                found.setdefault(m.group(1), set()).add(kind + "f")
            elif kind == "P" and (m := LOCAL.match(line)) and m.group(1) not in ("let", "in"):
                found.setdefault(m.group(1), set()).add("L")
            if not line.startswith(OTHER) and (m := SIGNATURE.match(line)):
                found.setdefault(m.group(1), set()).add(kind)
    return found


def snake(word):
    """camelCase to snake_case; a word that begins with a capital is a type and stays."""
    if word == "getD":
        return "get_or"
    if word[:1].isupper():
        return word
    return re.sub(r"(?<=[a-z0-9])([A-Z])", lambda m: "_" + m.group(1).lower(), word)


def texts():
    return [p for pattern in ("crates/**/*.antt", "crates/**/*.rt", "crates/*/must-fail/*.edit") for p in sorted(glob.glob(pattern, recursive=True)) if "/out/" not in p]


def joined(parts, known):
    """The parts of a lemma's name: as few names as can be, a dash between two that stand for things, and `_` elsewhere."""
    names = []
    while parts:
        n = next((n for n in range(len(parts), 0, -1) if "_".join(parts[:n]) in known), 1)
        names.append("_".join(parts[:n]))
        parts = parts[n:]
    made = names[0]
    for a, b in zip(names, names[1:]):
        made += ("-" if a in known and b in known else "_") + b
    return made


def table():
    found = definitions()
    known = set(WORDS)
    for name, kinds in found.items():
        if kinds & {"S", "Sf"}:
            known.add("_".join(snake(w) for w in name.split("-")))
    for path in glob.glob("crates/*/src/*.rt"):
        known |= set(re.findall(r"\bfn (\w+)", open(path, encoding="utf-8").read()))
    new = {}
    for name, kinds in found.items():
        parts = [snake(w) for w in name.split("-")]
        new[name] = "_".join(parts) if kinds & {"S", "Sf", "Pf"} else joined(parts, known)
    new = {a: b for a, b in new.items() if a != b} | APART
    words = antt_words()
    made = {}
    for name, to in new.items():
        made.setdefault(to, []).append(name)
    # A lemma, a field or a local that would have a definition's name gets `_lem`, as the library's lemmas do.
    for to, names in list(made.items()):
        for lemma in [n for n in names if "S" not in found[n]] if len(names) > 1 else []:
            new[lemma] = to + "_lem"
        if to in words and to not in LIBRARY:
            if "S" in found.get(to, ()):
                for name in names:
                    new[name] = to + "_lem"
            else:
                new[to] = to + "_lem"
    return new


def antt_words():
    """The words of all antt text, but for comments, paths of modules, and the names of a function's own modules."""
    used = set()
    for path in texts():
        if not path.endswith(".antt"):
            continue
        for line in open(path, encoding="utf-8"):
            line = re.sub(r"(^|\s)--.*", "", line)
            line = re.sub(r"(Rattle|denote|borrow|contract)\.[\w'+.-]+", "", line)
            line = re.sub(r"(?<=[\w)])\.[\w'-]+", "", line)
            used |= set(TOKEN.findall(line))
    return used


def together(new):
    """Names that would fall together: with one another, or with a word that stands in antt text already."""
    used = antt_words() - set(new) - LIBRARY
    said = [f"{a} and {c} would both be {b}" for (a, b) in new.items() for c in new if c < a and new[c] == b]
    return said + [f"{a} would be {b}, which stands already" for a, b in new.items() if b in used]


def ghost(text):
    """The places of a .rt file that are antt: imports, clauses and ghost items."""
    return re.split(r"(^ghost use .*$|^\s*(?:requires|ensures|ghost)\b.*\{.*\}\s*,?$)", text, flags=re.M)


def turned(text, new):
    return TOKEN.sub(lambda m: new.get(m.group(0), m.group(0)), text)


def main():
    new = table()
    said = together(new)
    if said:
        print("\n".join(said), file=sys.stderr)
        return 2
    if sys.argv[1:] == ["table"]:
        print("\n".join(f"{a} {b}" for a, b in sorted(new.items())))
        return 0
    for path in texts():
        with open(path, encoding="utf-8") as f:
            text = f.read()
        if path.endswith(".rt"):
            parts = ghost(text)
            after = "".join(turned(p, new) if i % 2 else p for i, p in enumerate(parts))
        else:
            after = turned(text, new)
        if after != text:
            with open(path, "w", encoding="utf-8") as f:
                f.write(after)
    print(f"spell: {len(new)} names")
    return 0


if __name__ == "__main__":
    raise SystemExit(main())
