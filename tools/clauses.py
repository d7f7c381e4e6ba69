"""Facts that stand in the contracts of three or more functions of a crate, and rows of parameters that three or more functions share.

python3 tools/clauses.py [COMMIT]    reads crates/*/src/*.rt of the commit, or of the working tree
"""
import collections
import re
import subprocess
import sys


def sources(commit):
    if commit:
        names = subprocess.run(["git", "ls-tree", "-r", "--name-only", commit, "crates"], capture_output=True, text=True, check=True).stdout.split()
    else:
        names = subprocess.run(["git", "ls-files", "crates"], capture_output=True, text=True, check=True).stdout.split()
    for name in names:
        if not re.match(r"crates/[^/]+/src/.*\.rt$", name) or name.endswith("tests.rt"):
            continue
        if commit:
            yield name, subprocess.run(["git", "show", f"{commit}:{name}"], capture_output=True, text=True, check=True).stdout
        else:
            try:
                yield name, open(name).read()
            except FileNotFoundError:
                continue


def functions(text):
    """Each function's name, parameters and clauses."""
    for match in re.finditer(r"\bfn (\w+)", text):
        head = text[match.end():]
        depth = 0
        start = None
        for at, letter in enumerate(head):
            if letter == "(":
                if depth == 0:
                    start = at
                depth += 1
            elif letter == ")":
                depth -= 1
                if depth == 0:
                    break
        parameters = head[start + 1:at]
        rest = head[at + 1:]
        clauses = []
        for line in rest.split("\n")[1:]:
            clause = re.match(r"\s+(requires|ensures)( \w+)? \{ (.*) \}[,;]?$", line)
            if clause:
                clauses.append((clause.group(1), clause.group(3)))
            elif line.strip():
                break
        yield match.group(1), parameters, clauses


def main():
    commit = sys.argv[1] if len(sys.argv) > 1 else None
    facts = collections.defaultdict(set)
    rows = collections.defaultdict(set)
    for name, text in sources(commit):
        crate = name.split("/")[1]
        for function, parameters, clauses in functions(text):
            where = f"{name}:{function}"
            for kind, fact in clauses:
                # a fact asked, whatever the state it is asked of, and a fact that every call keeps
                plain = re.sub(r"\.(old|new|now)\b", "", fact)
                if kind == "requires" or ".new" in fact and ".old" in fact and len(plain) < 80:
                    facts[crate, plain].add(where)
            named = re.findall(r"(\w+): ", parameters)
            for size in (2, 3, 4, 5):
                for at in range(len(named) - size + 1):
                    rows[crate, ", ".join(named[at:at + size])].add(where)
    for title, found in (("facts", facts), ("parameters", rows)):
        shown = {key: places for key, places in found.items() if len(places) >= 3}
        if title == "parameters":
            # a part of a longer row that the same functions share says nothing more
            shown = {key: places for key, places in shown.items()
                     if not any(other != key and other[0] == key[0] and key[1] in other[1] and places <= more for other, more in shown.items())}
        print(f"{title}: {len(shown)}")
        for (crate, what), places in sorted(shown.items(), key=lambda item: (item[0][0], -len(item[1]))):
            print(f"  {len(places):3} {crate}: {what}")


main()
