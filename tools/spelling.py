#!/usr/bin/env python3
"""Brings the repository's own names to today's spelling, once, after the kit's port.py has turned the language's.

    python3 tools/spelling.py          at the top of the repository

- A definition, field or variable in camel case is in snake case: `contentClashes` is `content_clashes`.
- A dash in the name of a lemma stays where it joins the names of two functions, as in `digits-length`; any other is an underscore.
- A lemma that would then have a definition's name ends in `_lem`.
- The crate `bytes` is `bytes_out`: the kit has a library named `bytes`.

Functions of src/, types, strings, inputs and outputs keep their names. Names in a file that only answers generated goals
(Proof.antt) change as far as they are defined elsewhere.
"""
import glob
import os
import re

SPLIT = re.compile(r"([\s(){}\[\],;.]+)")
CAMEL = re.compile(r"^[a-z][a-z0-9']*[A-Z]")
# what the library calls by one word; with the definitions of specs/ these are the names that a dash may join
LIBRARY = """length append take drop map set sets get_or sum add sub mul suc cond eqb leb ltb not and or reverse max min le lt any every
    keep flat""".split()


def snake(name):
    return re.sub(r"([a-z0-9'])([A-Z])", lambda found: found.group(1) + "_" + found.group(2).lower(), name)


def code_and_comment(line):
    """A line of antt or Rattle, and the comment that ends it."""
    if line.lstrip().startswith(("--", "//")):
        return "", line
    for mark in (" -- ", " // "):
        at = line.find(mark)
        if at >= 0:
            return line[:at], line[at:]
    return line, ""


def sources():
    found = []
    for ending in ("antt", "rt"):
        found += glob.glob("crates/**/*." + ending, recursive=True)
    return sorted(found)


DECLARED = re.compile(r"(?:^|\s|\()(?:pub )?([^\s(){}\[\],;.:]+) :(?: |$)")
DEFINED = re.compile(r"^\s*(?:abbrev|unfoldable)(?: pub)? ([^\s(){}\[\],;.:]+) :(?: |$)")


def names():
    """All names declared outside Proof.antt, those of functions, those of a record's fields, and every word in use."""
    declared, functions, fields, words = set(), set(LIBRARY), set(), set()
    for path in sources():
        in_record = False
        for line in open(path):
            code, _ = code_and_comment(line)
            bare = re.sub(r"^(ghost )?(pub )?use [^{]*", "", code.strip())
            words.update(SPLIT.split(bare))
            if not path.endswith(".antt") or path.endswith("Proof.antt"):
                continue
            declared.update(DECLARED.findall(code))
            functions.update(snake(name) for name in DEFINED.findall(code))
            if code.strip():
                indent = len(code) - len(code.lstrip())
                if re.match(r"\s*(pub )?(record|data) ", code):
                    in_record, record_indent = True, indent
                elif indent <= (record_indent if in_record else -1):
                    in_record = False
                elif in_record:
                    fields.update(DECLARED.findall(code)[:1])
    return declared, functions, fields, words


def dashed(name, functions):
    parts = snake(name).split("-")
    out = parts[0]
    for before, after in zip(parts, parts[1:]):
        out += ("-" if before in functions and after in functions else "_") + after
    return out


def renaming():
    declared, functions, fields, words = names()
    camel = {word: snake(word) for word in words if CAMEL.match(word) and "-" not in word}
    new = dict(camel)
    taken = set(camel.values())
    lemmas = {name for name in declared if "-" in name and re.match(r"[a-zA-Z]", name)}
    for name in sorted(declared & taken):
        new[name] = name + "_lem"
    taken |= words - lemmas
    for name in sorted(lemmas):
        to = dashed(name, functions)
        if to == name:
            continue
        if to in taken:
            to += "_lem"
        assert to not in taken, (name, to)
        taken.add(to)
        new[name] = to
    return {name: to for name, to in new.items() if name != to}


def turned(code, new, rattle):
    head = re.match(r"^(\s*(?:ghost )?(?:pub )?use [^{]*)(.*)$", code, re.S)
    first, rest = (head.group(1), head.group(2)) if head else ("", code)
    parts = SPLIT.split(rest)
    for at, part in enumerate(parts):
        if part not in new:
            continue
        after_c = at >= 2 and parts[at - 1] == "." and re.match(r"^(c|args|before)$", parts[at - 2])
        if rattle and not CAMEL.match(part):
            continue
        if not after_c:
            parts[at] = new[part]
    return first + "".join(parts)


def quoted(comment, new):
    """In a comment only what stands between backquotes is a name, and a word in camel case."""
    comment = re.sub(r"`([^`\n]+)`", lambda found: "`" + "".join(new.get(p, p) for p in SPLIT.split(found.group(1))) + "`", comment)
    return "".join(new.get(p, p) if CAMEL.match(p) else p for p in SPLIT.split(comment))


def moved_crate(text):
    text = text.replace("Rattle.bytes.", "Rattle.bytes_out.")
    return re.sub(r"\buse bytes::", "use bytes_out::", text)


def main():
    new = renaming()
    for path in sources():
        text = open(path).read()
        out = ""
        for line in text.splitlines(keepends=True):
            code, comment = code_and_comment(line)
            out += turned(code, new, path.endswith(".rt")) + quoted(comment, new)
        out = moved_crate(out)
        if out != text:
            open(path, "w").write(out)
    if os.path.isdir("crates/bytes"):
        os.rename("crates/bytes", "crates/bytes_out")
        listed = open("crates.txt").read()
        open("crates.txt", "w").write(re.sub(r"\bbytes\b", "bytes_out", listed))
    for name in sorted(new):
        print("%s\t%s" % (name, new[name]))


if __name__ == "__main__":
    main()
