#!/usr/bin/env python3
"""Respells the repository's own definitions and lemmas: snake case in place of dashes, camel case for types.

Run at the top of the checkout, once, after the toolchain's own script: tools/respell.py [--dry]. It renames what crates/*/specs and
crates/*/proofs define or import under a name of their own, wherever contracts, definitions, proofs and edits name it. Names of src/, of
the library and of goals stay, and so do comments, but for names in backticks. It prints the names that fall together with another word
of the same sources.
"""
import os
import re
import sys

DEFINED = re.compile(r"^(?: {0,4})(?:(?:pub|abbrev|unfoldable|data|record)\s+)*([^\s:(){}]+)(?:\s+\(.*\)|\s+\{.*\})*\s+:\s+(.*)$")
OPENS_RECORD = re.compile(r"^(?:pub\s+)?record\s+([^\s:(){}]+)")
LETTER = r"A-Za-z0-9_ℕℤ'"
TOKEN = re.compile(r"[^\s(){}\[\],;`\".λ⌜⌝]+")
GHOST = re.compile(r"^\s*(?:pub )?(?:ghost|requires|ensures)\b")


def files(*endings):
    for folder, names, found in os.walk("crates"):
        names[:] = [n for n in names if n != "out"]
        for f in sorted(found):
            if f.endswith(endings):
                yield os.path.join(folder, f)


def defined():
    names = set()
    for path in files(".antt", ".rt"):
        for line in open(path):
            if re.match(r"\s*(ghost )?use ", line):
                names.update(re.findall(r"\bas ([^\s,;{}]+)", line))
            if path.endswith(".rt"):
                continue
            m = DEFINED.match(line.rstrip("\n"))
            if m and not line.lstrip().startswith(("--", "let ")) and not re.match(r"(goal|need|given)\.", m.group(2)):
                names.add(m.group(1))
            m = OPENS_RECORD.match(line)
            if m:
                names.add(m.group(1))
    return names


def respelled(name):
    parts = name.split("-")
    if not all(re.fullmatch(rf"[{LETTER}]+", p) for p in parts):
        return name
    if name[0].isupper():
        return "".join(p[0].upper() + p[1:] for p in parts)
    return "_".join(parts)


def turn(text, new):
    return TOKEN.sub(lambda m: new.get(m.group(0), m.group(0)), text)


def in_backticks(text, new):
    return re.sub(r"`[^`]*`", lambda m: "`" + turn(m.group(0)[1:-1], new) + "`", text)


def turn_line(line, new, mark):
    at = line.find(mark)
    if at < 0:
        return turn(line, new)
    return turn(line[:at], new) + in_backticks(line[at:], new)


def turn_file(path, new):
    text = open(path).read()
    lines = text.split("\n")
    for i, line in enumerate(lines):
        if path.endswith(".antt"):
            lines[i] = turn_line(line, new, "--" if line.lstrip().startswith("--") else " -- ")
        elif path.endswith(".rt"):
            lines[i] = turn_line(line, new, "//") if GHOST.match(line) else (in_backticks(line, new) if line.lstrip().startswith("//") else line)
        else:
            body = re.sub(r"^(old|new): ", "", line)
            lines[i] = line[: len(line) - len(body)] + turn(body, new) if GHOST.match(body) or path_of(lines).endswith(".antt") and body != line else line
    if "\n".join(lines) != text and "--dry" not in sys.argv:
        open(path, "w").write("\n".join(lines))
    return "\n".join(lines) != text


def path_of(lines):
    return lines[0].removeprefix("file: ") if lines else ""


def main():
    names = defined()
    new = {n: respelled(n) for n in sorted(names) if "-" in n and respelled(n) != n}
    words = {}
    for path in files(".antt", ".rt"):
        for w in set(re.findall(rf"[{LETTER}-]+", open(path).read())):
            words.setdefault(w, set()).add(path)
    for n, to in new.items():
        if to in words:
            print(f"together: {n} becomes {to}, which stands in {', '.join(sorted(words[to])[:4])}")
    changed = sum(turn_file(p, new) for p in files(".antt", ".rt", ".edit"))
    print(f"respelled {len(new)} names in {changed} files")


main()
