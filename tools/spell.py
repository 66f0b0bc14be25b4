#!/usr/bin/env python3
"""Spells the repository's own definitions and lemmas as the toolchain spells its own: words joined by `_`, types and facts in camel case.

    spell.py         at the top of the repository, once, after the toolchain's script for an older repository
    spell.py list    says what it would respell, and changes nothing

A name is one that a file of specs/ or proofs/ declares: a definition, a lemma, a constructor, a field or a record's own name. An answer's name
(its type is `goal.NAME`) is the prover's and stays, as do names that are imported from elsewhere. Functions, parameters, strings and
comments stay. A new name that is taken already, by another name of the repository or by one that it imports, is refused.
"""

import collections
import glob
import re
import sys

# a name: anything up to a blank or a bracket; a dot separates it from what it is a part of
NAME = r"[^\s(){}\[\].;,⌜⌝«»:=|\\\"]+"
DECLARED = re.compile(rf"^\s*(?:(?:abbrev|unfoldable|pub|opaque|data|record|ruleset)\s+)*({NAME})((?:\s[({{].*?)?)\s:\s(.*)$")
KEYWORDS = {"let", "elim", "use", "module", "open", "in", "mod"}
# names that still say what a word of the library was called
OLD_WORDS = {"getD": "get_or"}
# a name that would fall together with one of the library
APART = {"nan-bits": "to_bits_nan"}


def files():
    for pattern in ("crates/*/src/**/*.rt", "crates/*/specs/**/*.antt", "crates/*/proofs/**/*.antt"):
        yield from sorted(glob.glob(pattern, recursive=True))


def code(line, mark):
    """The line without its comment."""
    at = line.find(mark)
    return line if at < 0 else line[:at]


def declared(texts):
    """Each declared name with the result types of its declarations."""
    found = collections.defaultdict(list)
    for path, text in texts.items():
        if path.endswith(".rt"):
            continue
        for line in text.split("\n"):
            hit = DECLARED.match(code(line, "--"))
            if hit and hit[1] not in KEYWORDS and not hit[3].startswith("goal.") and not line.lstrip().startswith("{"):
                found[hit[1]].append(hit[3])
    return found


def imported(texts):
    """The names that come from outside the repository."""
    own = {path.split("/")[1] for path in texts}
    outside = set()
    for text in texts.values():
        for hit in re.finditer(r"use ([\w.·+]+)\.\{([^}]*)\}", text):
            module = hit[1].split(".")
            if not (module[0] == "Rattle" and module[1] in own):
                outside |= {part.split(" as ")[0].strip() for part in hit[2].split(",")}
    return outside


def is_type(name, results):
    return name[0].isupper() and any(re.search(r"Type \d+( where)?$", r.strip()) for r in results)


def respelled(name, results):
    if name in APART:
        return APART[name]
    parts = [OLD_WORDS.get(part, part) for part in name.split("-")]
    if is_type(name, results):
        return "".join(part[0].upper() + part[1:] for part in parts)
    return "_".join(parts)


def main(argv):
    texts = {path: open(path).read() for path in files()}
    found = declared(texts)
    outside = imported(texts)
    new = {}
    for name, results in found.items():
        if "-" in name and re.match(r"[A-Za-z]", name):
            new[name] = respelled(name, results)
    taken = collections.Counter(new.values())
    for name, to in sorted(new.items()):
        if name in outside:
            print(f"imported too: {name}")
        if to in found or to in outside or taken[to] > 1:
            print(f"taken: {name} -> {to}")
    if argv == ["list"]:
        for name, to in sorted(new.items()):
            print(name, "->", to)
        return
    token = re.compile(NAME)
    for path, text in texts.items():
        mark = "//" if path.endswith(".rt") else "--"
        lines = []
        for line in text.split("\n"):
            head = code(line, mark)
            if not path.endswith(".rt") or re.search(r"ghost|requires|ensures", head):
                # what stands between quotes is no code
                pieces = head.split('"')
                pieces[::2] = [token.sub(lambda hit: new.get(hit[0], hit[0]), piece) for piece in pieces[::2]]
                head = '"'.join(pieces)
            lines.append(head + line[len(code(line, mark)):])
        after = "\n".join(lines)
        if after != text:
            with open(path, "w") as out:
                out.write(after)


if __name__ == "__main__":
    main(sys.argv[1:])
