#!/usr/bin/env python3
"""Brings the definitions and lemmas of this repository to snake case.

usage: python3 tools/respell.py [--list]      at the top of the repository, once, after port.py

A name is one of ours where a file of specs/, or a file right in proofs/, declares it: a definition, a lemma, a field or a constructor.
Types, facts and modules keep their capitals, and names that another name would fall together with are given in OTHER. Functions of src/,
exported names, strings, inputs and outputs are left alone.
"""

import os
import re
import subprocess
import sys

TOKEN = re.compile(r"[^\s(){}\[\],;.«»`\"]+")
DECLARED = re.compile(r"^(\s*)(?:(?:abbrev|unfoldable|pub|data|record)\s+)*([^\s(){}\[\],;.]+(?: [^\s(){}\[\],;.]+)*)\s*(?:\{[^}]*\}\s*|\([^)]*\)\s*)*:(?!=)(?:\s|$)")
# Two names of ours that would become one: the definition has the plain name, the lemma `_lem` after it.
OTHER = {name: name.replace("-", "_") + "_lem" for name in (
    "all-events all-ok below-ten combination-length count_at counted-from end-checks end-own entries-taken entry-bytes entry-taken form-at "
    "fraction-writes in-last join-text leap-day length-at month-at parts-text refusal-at run-checks run-own sizing-edges steps-taken texts-apart "
    "week-one well-stored width-taken within-limit"
).split()}
# A lemma of the library, named in a pattern of ours.
KEPT = {"eqb-false"}
OTHER |= {"tooLong": "is_too_long", "noBuffer": "has_no_buffer", "year-day": "day_of_year", "notALetter": "not_a_letter"}
# Variables of the rules' definitions.
LOCALS = {"weekDay": "week_day", "yearDay1": "year_day_1", "formatLength": "format_length", "byteOk": "byte_ok"}
# A lemma with the name of a function of src/, which keeps it.
OF_SOURCE = {"count_at"}


def snake(name):
    """The name in snake case: humps and dashes become underscores."""
    if name.startswith("_") or not re.fullmatch(r"[A-Za-z0-9_'\u2080-\u2089\u00b2\u00b3-]+", name) or "--" in name:
        return name
    parts = []
    for part in name.split("-"):
        if part[:1].isupper():
            parts.append(part)
        else:
            parts.append(re.sub(r"(?<=[a-z0-9'])([A-Z])", lambda m: "_" + m.group(1).lower(), part))
    return "_".join(parts)


def ours(root):
    for crate in sorted(os.listdir(os.path.join(root, "crates"))):
        for kind in ("specs", "proofs"):
            folder = os.path.join(root, "crates", crate, kind)
            if os.path.isdir(folder):
                for f in sorted(os.listdir(folder)):
                    if f.endswith(".antt"):
                        yield os.path.join(folder, f)


def declared(path):
    """The names that the file declares, at its top level or as fields and constructors of its types."""
    depth_type = False
    with open(path, encoding="utf-8") as f:
        for line in f:
            if re.match(r"\S", line):
                depth_type = bool(re.match(r"(?:(?:abbrev|unfoldable|pub)\s+)*(?:data|record|module)\b", line))
            body = line.split("--", 1)[0] if re.match(r"\s*--", line) else line
            m = DECLARED.match(body)
            if m and (not m.group(1) or depth_type):
                yield from m.group(2).split()


def main(argv):
    root = subprocess.run(["git", "rev-parse", "--show-toplevel"], capture_output=True, text=True, check=True).stdout.strip()
    names = {}
    for path in ours(root):
        for name in declared(path):
            names.setdefault(name, set()).add(path)
    change = {}
    for name in names:
        new = OTHER.get(name, snake(name))
        if new != name and name not in KEPT and not name[:1].isupper():
            change[name] = new
    change |= LOCALS
    taken = {}
    for old, new in change.items():
        taken.setdefault(new, []).append(old)
    if argv == ["--list"]:
        for old in sorted(change):
            print(old, change[old])
        return 0
    clash(root, change, taken, names)
    turned = 0
    for path in files(root):
        with open(path, encoding="utf-8") as f:
            text = f.read()
        new = turn(path, text, change)
        if new != text:
            turned += 1
            with open(path, "w", encoding="utf-8") as f:
                f.write(new)
    print(f"respell: {len(change)} names, {turned} files")
    return 0


def files(root):
    listed = subprocess.run(["git", "ls-files"], cwd=root, capture_output=True, text=True, check=True).stdout.split("\n")
    for f in listed:
        if f.startswith("crates/") and f.endswith((".antt", ".rt", ".edit")) or f.endswith(".md") and not f.startswith("tests/"):
            yield os.path.join(root, f)


def replaced(text, change):
    return TOKEN.sub(lambda m: change.get(m.group(0), m.group(0)), text)


def quoted(text, change):
    """Comments and pages: only what stands between backticks."""
    return re.sub(r"`[^`\n]*`", lambda m: replaced(m.group(0), change), text)


def turn(path, text, change):
    if path.endswith(".md"):
        return quoted(text, change)
    if path.endswith(".rt"):
        change = {old: new for old, new in change.items() if old not in OF_SOURCE}
    mark = "--" if path.endswith(".antt") else "//"
    out = []
    for line in text.split("\n"):
        if line.lstrip().startswith(mark):
            out.append(quoted(line, change))
        else:
            at = line.find(" " + mark + " ")
            code, said = (line, "") if at < 0 else (line[:at], line[at:])
            out.append(replaced(code, change) + quoted(said, change))
    # A crate that uses `std` names the words of `core` by the path that `std` gives them.
    return "\n".join(out).replace("Rattle.core.", "Rattle.std.")


def clash(root, change, taken, names):
    """Names that would fall together: two of ours that become one, or one that becomes a word that stands already in a file that it is used in."""
    for new, olds in sorted(taken.items()):
        if len(olds) > 1 or new in names:
            print("clash:", new, "from", olds, "stands already" if new in names else "")
    for path in files(root):
        if path.endswith(".md"):
            continue
        with open(path, encoding="utf-8") as f:
            text = f.read()
        tokens = set(TOKEN.findall(text))
        for old in sorted(tokens & set(change)):
            if change[old] in tokens:
                print("met:", os.path.relpath(path, root), old, change[old])


if __name__ == "__main__":
    raise SystemExit(main(sys.argv[1:]))
