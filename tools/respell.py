#!/usr/bin/env python3
"""Spells this repository's own names as today's Rattle does, and renames the crates that are called as a library of the kit.

usage: python3 tools/respell.py     at the top of the repository, once, after the toolchain's port.py

Definitions, lemmas, fields and constructors get underscores, types and facts camel case. What an item of src/ is called,
exported names, strings, and the goals that Rattle names stay. Lines that begin with 'look:' name words that fall together.
"""

import collections
import os
import re
import subprocess

CRATES = {"bytes": "byte_strings", "hex": "hexadecimal", "sha1": "sha1_digest"}
NAME = r"[^\s(){}.;,@\"«»`|\[\]]+"
DECLARATION = re.compile(
    rf"( *)((?:(?:abbrev|opaque|unfoldable|pub|record|data)\s+)*)({NAME})((?:\s+(?:{NAME}|[({{][^=]*))?)\s*:(?:\s|$)"
)
USE = re.compile(r"\buse (Rattle|mathlib|native|Prim|borrow|lib)((?:\.[^\s.{};]+)*)(?:\.\{([^}]*)\})?(?: as (\S+?))?(?=;|\s|$)")
MADE = ("Answers.antt", "Invariants.antt", "Choices.antt", "Proof.antt")
OF_MADE = re.compile(r"\.(Goals|Given|Needs)$")


def respelled(name):
    if name[0].isupper():
        return "".join(part[:1].upper() + part[1:] for part in re.split(r"[-_]", name))
    # a fact keeps its capital, and its parts run together
    return re.sub(r"([A-Z][A-Za-z]*)(?:-([A-Z][A-Za-z]*))+", lambda m: m[0].replace("-", ""), name).replace("-", "_")


def files(ending):
    for top in ("crates", "drafts"):
        for folder, dirs, names in os.walk(top):
            dirs[:] = sorted(d for d in dirs if d != "out")
            for name in sorted(names):
                if name.endswith(ending):
                    yield os.path.join(folder, name)


def read(path):
    with open(path, encoding="utf-8") as f:
        return f.read()


def write(path, text):
    with open(path, "w", encoding="utf-8") as f:
        f.write(text)


def is_own(head, path, own):
    return head == "Rattle" and path.split(".")[1] in own


def imports(text, own):
    """The names that a file brings in: those of this repository, and those of others."""
    ours, others = set(), set()
    for head, path, items, alias in USE.findall(text):
        names = [it.split(" as ") for it in re.split(r",\s*", (items or "").strip()) if it]
        goes = ours if is_own(head, path, own) and not OF_MADE.search(path) else others
        for it in names:
            goes.add(it[0].strip())
            goes.update(x.strip() for x in it[1:])
    return ours, others


def declared(text):
    found = set()
    for line in text.split("\n"):
        m = DECLARATION.match(re.sub(r"--.*", "", line))
        if m and m[3] not in ("use", "mod", "module", "let", "λ"):
            found.add(m[3])
            if m[4].strip() and not m[4].strip().startswith(("(", "{")):
                found.add(m[4].strip())
    return found


def main():
    own = set(os.listdir("crates"))
    names = set()
    for path in files(".antt"):
        if os.path.basename(path) not in MADE:
            names |= declared(read(path))
    table = {n: respelled(n) for n in names if n.isidentifier() or "-" in n or n[0].isalpha()}
    table = {old: new for old, new in table.items() if old != new}
    back = collections.defaultdict(set)
    for n in names:
        back[table.get(n, n)].add(n)
    for new, olds in sorted(back.items()):
        if len(olds) > 1:
            print(f"look: {' and '.join(sorted(olds))} fall together as {new}")

    word = re.compile(rf"(?<![^\s(){{}}.;,@\"«»`|\[\]])({NAME})")

    def turn(path, text, made):
        ours, others = imports(text, own)
        here = declared(text)

        def one(m):
            it = m[1]
            prime = ""
            if it not in table:
                # a variable of a lemma with a dash is a word of ours too
                if made or "-" not in it or it in others or not re.fullmatch(r"[a-zA-Z][\w'-]*", it) or m.start() and text[m.start() - 1] == ".":
                    return it
                return respelled(it)
            if it in others and it not in ours:
                return it
            if made and it not in ours and not (m.start() and text[m.start() - 1] == "."):
                return it
            if m.start() and text[m.start() - 1] == "." and re.search(r"\b(goal|need|given|c|w|l)$", text[: m.start() - 1]) and made:
                return it
            return table[it] + prime

        new = word.sub(one, text)
        after, other = imports(new, own)
        clash = after & other
        if clash:
            print(f"look: {path}: {' '.join(sorted(clash))} of ours and of a library fall together")
        return new

    for path in files(".antt"):
        write(path, turn(path, read(path), os.path.basename(path) in MADE))
    clause = re.compile(rf"(?<![\w.:'-])([A-Za-z_]\w*(?:-[\w']+)+)(?![\w-])")
    for path in list(files(".rt")) + list(files(".edit")) + list(files(".edit.draft")):
        text = read(path)
        _, others = imports(text, own)
        it = lambda m: table.get(m[1], m[1]) if m[1] not in others else m[1]
        new = clause.sub(it, text)
        new = re.sub(r"(?<=[\w)]\.)([A-Za-z_]\w*(?:-[\w']+)+)(?![\w-])", it, new)
        for old in ("Laid_out",):
            new = re.sub(rf"\b{old}\b", table.get(old, old), new)
        write(path, new)
    for folder, dirs, these in os.walk("docs"):
        for name in these:
            path = os.path.join(folder, name)
            text = read(path)
            write(path, re.sub(r"`([^`\n]+)`", lambda m: "`" + clause.sub(lambda w: table.get(w[1], w[1]), m[1]) + "`", text))

    # crates
    for path in list(files(".antt")) + list(files(".rt")) + list(files(".edit")) + list(files(".edit.draft")):
        text = read(path)
        for old, new in CRATES.items():
            text = re.sub(rf"\bRattle\.{old}\b", f"Rattle.{new}", text)
            if not path.endswith(".antt"):
                text = re.sub(rf"(?<![\w:]){old}::(?=[a-z_{{]+)", f"{new}::", text)
        write(path, text)
    lines = []
    for line in read("crates.txt").split("\n"):
        if line and not line.startswith("#"):
            line = re.sub(r"\w+", lambda m: CRATES.get(m[0], m[0]), line)
        lines.append(line)
    write("crates.txt", "\n".join(lines))
    for old, new in CRATES.items():
        subprocess.run(["git", "mv", f"crates/{old}", f"crates/{new}"], check=True)
    print(f"respell: {len(table)} names")


if __name__ == "__main__":
    main()
