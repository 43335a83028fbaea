#!/usr/bin/env python3
"""Spells the names that this repository's specs/ and proofs/ declare as the library's: words in snake case, a dash only between two names.

usage: respell.py FOLDER    the top of a checkout, right behind the toolchain's port.py

A name of two words, as goodName, becomes good_name. In the name of a lemma a dash stays between two names, as in length-append, and a plain
word gets an underscore. A lemma that would have the name of a definition gets _lem behind it. Functions of src/, C names and strings keep theirs.
"""
import os
import re
import sys

TOKEN = re.compile(r"[^\s(){}\[\].;,@\"«»`:]+")
DECLARED = re.compile(r"(?m)^ *(?:(?:pub|abbrev|unfoldable|data|record|ruleset) )*([^\s(){}.;,@\"«»:]+) :")
# Words of std that lemmas here are named for.
LIBRARY = set("append length take drop set sets reverse map filter cond eqb leb get_or slice_index sum mod div pow min max".split())


def snake(name):
    return re.sub(r"(?<=[a-z0-9])([A-Z])", lambda m: "_" + m.group(1).lower(), name)


def is_function_proof(path):
    return re.search(r"/proofs/(?:[^/]+/)+(?:Proof|Answers|Invariants)\.antt$", path) is not None


def texts(top, *endings):
    for folder, dirs, files in os.walk(top):
        dirs[:] = sorted(d for d in dirs if d not in ("out", "target", ".git"))
        for f in sorted(files):
            if f.endswith(endings):
                yield os.path.join(folder, f)


def read(path):
    with open(path, encoding="utf-8") as f:
        return f.read()


def code_of(path, text):
    return re.sub(r"//.*" if path.endswith(".rt") else r"(?<!\S)--.*", "", text)


def main(top):
    crates = os.path.join(top, "crates")
    words, lemmas, used, rust = set(), set(), set(), set()
    for path in texts(crates, ".antt", ".rt"):
        code = code_of(path, read(path))
        used.update(TOKEN.findall(code))
        if path.endswith(".rt"):
            rust.update(re.findall(r"\b(?:fn|mod|const|let|let mut) (\w+)", code))
        elif not is_function_proof(path):
            (words if "/specs/" in path else lemmas).update(n for n in DECLARED.findall(code) if re.match(r"[a-z]", n))
    names = {snake(w) for w in words} | LIBRARY

    def dashed(name):
        parts = snake(name).split("-")
        said = parts[0]
        start = 0
        for i in range(1, len(parts)):
            left = said[start:]
            right = next((j for j in range(len(parts), i, -1) if "_".join(parts[i:j]) in names), 0)
            if left in names and right:
                said += "-"
                start = len(said)
            else:
                said += "_"
            said += parts[i]
        return said

    table = {}
    for name in sorted(words | lemmas):
        new = dashed(name)
        if new != name:
            table[name] = new
    # Definitions beside a lemma of their name, and names that stand in two crates without meeting.
    for name, new in {"cutOff": "cut_off", "firstPiece": "first_piece", "newFields": "new_fields"}.items():
        table[name] = new
        for lemma in {new, new.replace("_", "-")} & lemmas:
            table[lemma] = new + "_lem"
    # Two names that fall together: the lemma's gets _lem behind it.
    for name in sorted(words & set(table)):
        if table[name] in lemmas and table[name] not in words and table[name] not in table:
            table[table[name]] = table[name] + "_lem"
    kept = (words | lemmas) - set(table)
    taken = set()
    apart = {"recordBytes", "record-bytes", "sendAt", "withOne", "with-one"}
    for name in sorted(table, key=lambda n: (n not in words, n)):
        new = table[name]
        if (new in taken or new in kept) and name not in apart and not new.endswith("_lem"):
            table[name] = new + "_lem"
        if table[name].endswith("_lem"):
            print(f"look: {name} is now {table[name]}" + (", a definition" if name in words else ""))
        taken.add(table[name])
    # Fields of records.
    table.update({"names-of": "names_are", "is-link": "a_link", "has-name": "holds_name"})
    camel = {n: t for n, t in table.items() if snake(n) != n}
    fields = set()
    for path in texts(crates, ".antt"):
        if not is_function_proof(path):
            for block in re.findall(r"(?m)^(?:pub )?record .*\n((?:  .*\n|\n)+)", code_of(path, read(path))):
                fields.update(re.findall(r"(?m)^  (?:pub )?([^\s(){}.;,]+) :", block))

    def turn(text, where, antt):
        def one(m):
            name = m.group(0)
            if name not in table:
                return name
            before = text[: m.start()]
            if name not in camel:
                if not antt:
                    return name
                line = before[before.rfind("\n") + 1 :]
                if re.search(r"(?<!\S)--", line) and not before.endswith(("`", ".")):
                    return name
                if before.endswith(".") and name not in fields:
                    head = re.search(r"([^\s(){}.;,@\"«»]+)\.$", before)
                    if not head or not re.match(r"[A-Z]", head.group(1)):
                        return name
            return table[name]

        return TOKEN.sub(one, text)

    for path in texts(crates, ".antt", ".rt", ".edit"):
        old = read(path)
        local = set(DECLARED.findall(code_of(path, old))) if is_function_proof(path) else set()
        held = {n: table.pop(n) for n in local & set(table) if n not in camel}
        new = turn(old, path, path.endswith(".antt") or ("/specs/" in old and path.endswith(".edit")))
        table.update(held)
        if new != old:
            with open(path, "w", encoding="utf-8") as f:
                f.write(new)
    for path in [p for p in texts(top, ".md") if "/crates/" not in p]:
        old = read(path)
        new = re.sub(r"`[^`\n]+`", lambda m: TOKEN.sub(lambda t: table.get(t.group(0), t.group(0)), m.group(0)), old)
        if new != old:
            with open(path, "w", encoding="utf-8") as f:
                f.write(new)
    print(f"{len(table)} names")


if __name__ == "__main__":
    main(sys.argv[1])
