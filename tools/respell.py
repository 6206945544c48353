#!/usr/bin/env python3
"""Brings the repository's own definitions, fields and lemmas to snake case, once, after the kit's own scripts.

usage: python3 tools/respell.py [--list]      at the top of the repository

A name counts as the repository's own if a file of specs/ or a file right in proofs/ declares it. Words are joined by '_'; a dash stays only
between two words that are names themselves, as in 'length-append'. Types, modules and facts keep their capitals, functions of src/, exported
names and texts keep their names. What a file of lemmas keeps to itself is turned in that file alone. Must-fail edits get the names too.
With --list it writes the old and new names and changes nothing.
"""
import os
import re
import sys

# Where the plain spelling would be that of a definition that the field or lemma stands beside.
CHOSEN = {"line-number": "number_first", "most-records": "few_records", "set-up": "is_set_up", "no_record": "no_record",
          "no-link": "no_link"}
STD_WORDS = {"length", "take", "drop", "append", "reverse", "sum", "set", "replicate", "cons", "map", "slice_set", "slice_index"}
WORD = r"[A-Za-z0-9_'₀-₉◌-]"


def files(ends):
    for top in ("crates", "docs", "README.md"):
        if os.path.isfile(top):
            yield top
        for folder, dirs, names in os.walk(top):
            dirs[:] = sorted(d for d in dirs if d != "out")
            for n in sorted(names):
                if n.endswith(ends):
                    yield os.path.join(folder, n)


def read(p):
    with open(p, encoding="utf-8") as f:
        return f.read()


def is_shared(p):
    """A file of specs/, or one right in proofs/: the folders below proofs/ belong to functions, and their names are made by the kit."""
    return p.endswith(".antt") and ("/specs/" in p or re.search(r"/proofs/[^/]+$", p))


def declared():
    functions, lemmas = {}, {}
    for p in files((".antt",)):
        if not is_shared(p):
            continue
        in_data = False
        for line in read(p).split("\n"):
            in_data = bool(re.match(r"(?:pub )?data .* where$", line)) or (in_data and line.startswith(" "))
            m = re.match(r"\s+([a-z]%s*) : " % WORD, line) if in_data else None
            if m:
                lemmas.setdefault(m.group(1), p)
            m = re.match(r"((?:(?:pub|abbrev|unfoldable|record|data|ruleset)\s+)*)(%s+)(?:\s+\(|\s*:| where)" % WORD, line)
            if m and not line.startswith(("use", "mod", "pub mod", "infix", "unfolding", "--")):
                (functions if "abbrev" in m.group(1) or "unfoldable" in m.group(1) else lemmas).setdefault(m.group(2), p)
            m = re.match(r"\s+pub (%s+) :" % WORD, line)
            if m:
                lemmas.setdefault(m.group(1), p)
    return functions, lemmas


def snake(name):
    return re.sub(r"(?<=[a-z0-9])([A-Z])", lambda m: "_" + m.group(1).lower(), name)


def respelled(name, known):
    if "◌" in name or name[0].isupper() or not re.match(r"[a-z]", name):
        return name
    parts = name.split("-")
    if len(parts) > 1 and all(snake(q) in known or q in STD_WORDS for q in parts):
        return "-".join(snake(q) for q in parts)
    return "_".join(snake(q) for q in parts)


def foreign(text):
    """The names that a file imports from elsewhere than the repository's crates."""
    found = set()
    for m in re.finditer(r"^(?:pub |ghost )?use ([A-Za-z_.]+)\.\{([^}]*)\}", text, re.M):
        crate = re.match(r"Rattle\.(\w+)\.", m.group(1) + ".")
        if not crate or not os.path.isdir("crates/" + crate.group(1)):
            found |= {n.strip() for n in m.group(2).split(",")}
    return found


def turned(path, text, table):
    """A file with its names turned; comments and pages speak English, so there only names that no English word looks like."""
    left = foreign(text)
    if not is_shared(path):
        # a name that is snake case already may be a function's of src/ here: it is turned only where it is imported as a lemma
        left |= {n for n in table if re.fullmatch(r"[a-z0-9_]+", n) and not re.search(r"proofs\.[A-Z]\w*\.\{[^}]*\b%s\b" % n, text)}
    at = re.compile(r"(?<![\w'◌₀-₉-])([a-z]%s*)(?![\w'◌₀-₉-])" % WORD)

    def one(m, english):
        n = m.group(1)
        return table[n] if n in table and n not in left and not (english and not re.search(r"[a-z][A-Z]", n)) else n

    lines = []
    for line in text.split("\n"):
        english = path.endswith(".md") or line.lstrip().startswith(("--", "//"))
        lines.append(at.sub(lambda m: one(m, english), line))
    return "\n".join(lines)


def locals_turned(path, text):
    """A file of lemmas with the names that it keeps to itself turned: what stands in a 'module _' block or below a 'where'."""
    if not is_shared(path):
        return text
    code = "\n".join(l for l in text.split("\n") if not l.lstrip().startswith("--"))
    words = set(re.findall(r"(?<![\w'◌₀-₉-])[a-z]%s*" % WORD, code))
    own = set(re.findall(r"^\s+(?:abbrev |unfoldable )*([a-z]%s*-%s*)(?: \(.*\))? : " % (WORD, WORD), code, re.M)) - foreign(text)
    table = {n: respelled(n, set()) for n in own}
    for old, new in sorted(table.items()):
        if new in words:
            print(f"falls together in {path}: {old} -> {new}")
    table = {old: new for old, new in table.items() if new not in words}
    at = re.compile(r"(?<![\w'◌₀-₉-])([a-z]%s*)(?![\w'◌₀-₉-])" % WORD)
    return "\n".join(l if l.lstrip().startswith("--") else at.sub(lambda m: table.get(m.group(1), m.group(1)), l) for l in text.split("\n"))


def main():
    functions, lemmas = declared()
    known = {snake(n) for n in functions}
    table = {n: respelled(n, known) for n in functions}
    for n in lemmas:
        if n not in functions:
            new = CHOSEN.get(n) or respelled(n, known)
            table[n] = new + "_lem" if new in table.values() and n not in CHOSEN else new
    back = {}
    for old, new in sorted(table.items()):
        if new in back:
            print(f"falls together: {old} -> {new} ({functions.get(old) or lemmas.get(old)}; {back[new]})")
        back[new] = old
    table = {old: new for old, new in table.items() if old != new}
    if "--list" in sys.argv:
        for old, new in sorted(table.items()):
            print(f"{old} {new}")
        return
    for p in files((".antt", ".rt", ".edit", ".md")):
        text = read(p)
        new = locals_turned(p, turned(p, text, table))
        if new != text:
            with open(p, "w", encoding="utf-8") as f:
                f.write(new)


main()
