#!/usr/bin/env python3
"""Brings the names of this repository's own definitions and lemmas to the spelling of the newer Rattle.

  respell_names.py          at the top of the repository, once, after the kit's own port.py
  respell_names.py --list   prints each name and its new spelling, and the places where two names would fall together

A definition or lemma is in snake case (`record-bytes` becomes `record_bytes`), a statement or a type in
camel case (`Twins-answer-alike` becomes `TwinsAnswerAlike`), a prime is an apostrophe. Names that the check
makes itself (`loop-f-preserved`), names of src/, strings and comments keep their spelling.
"""
import collections
import os
import re
import subprocess
import sys

NAME = r"[^\s:(){}\[\],;.«»]+"
TOKEN = re.compile(r"(?<![^\s:(){}\[\],;.«»])" + NAME)
TOP = re.compile(r"^(?:(?:pub|abbrev|unfoldable|data|record)\s+)*(" + NAME + r")\s+(?:\([^)]*\)\s*|\{[^}]*\}\s*)*:(?:\s|$)(.*)")
FIELD = re.compile(r"^\s+(?:pub\s+)?(" + NAME + r")\s+:\s")
ANSWERS = ("Answers.antt", "Invariants.antt", "Proof.antt")

# a name that would fall together with another one gets this one in its place
OTHERWISE = {
    "bool-byte": "bool_byte-one_if",
    "bool-byte-le": "bool_byte-below",
    "Ten-bits": "TenBitColumn",
}

# names that port.py had turned in the definitions and left in places where they are used
LEFT = {"in-order": "in_order", "in-step": "in_step"}


def files(root, suffixes):
    names = subprocess.run(["git", "ls-files", "-z", "--cached", "--others", "--exclude-standard"], cwd=root, capture_output=True, text=True, check=True).stdout
    for name in sorted(names.split("\0")):
        if name.endswith(suffixes) and os.path.exists(os.path.join(root, name)):
            yield name


def read(root, name):
    with open(os.path.join(root, name), encoding="utf-8") as f:
        return f.read()


def new_spelling(name):
    if name in OTHERWISE:
        return OTHERWISE[name]
    name = name.replace("′", "'")
    if name[0].isupper():
        return "".join(part[:1].upper() + part[1:] for part in name.split("-"))
    return name.replace("-", "_")


def own_names(root):
    """The dashed names that the repository's own specs/ and proofs/ define."""
    found = {}
    for path in files(root, ".antt"):
        answers = path.endswith(ANSWERS)
        for line in read(root, path).split("\n"):
            top = TOP.match(line)
            if top and top.group(1) not in ("use", "mod", "open"):
                if answers and re.match(r"goal\.", top.group(2)):
                    continue
                name = top.group(1)
            else:
                field = FIELD.match(line)
                if answers or not field:
                    continue
                name = field.group(1)
            if "-" in name.strip("-") and re.match(r"^[A-Za-z]", name) or "′" in name:
                found.setdefault(name, path)
    return {name: new_spelling(name) for name in found} | LEFT


def code_parts(text, suffix):
    """Pieces of a file: (is it code?, text). Comments and strings are not code."""
    pattern = r"--[^\n]*" if suffix == ".antt" else r'//[^\n]*|b?"(?:\\.|[^"\\])*"|b?\'(?:\\.|[^\'\\\n])\''
    at = 0
    for m in re.finditer(pattern, text):
        if suffix == ".antt" and m.start() and text[m.start() - 1] not in " \n\t":
            continue
        yield True, text[at:m.start()]
        yield False, m.group(0)
        at = m.end()
    yield True, text[at:]


def respelled(text, names, suffix):
    def token(m):
        return names.get(m.group(0), m.group(0))

    def quoted(m):
        return "`" + TOKEN.sub(token, m.group(1)) + "`"

    if suffix in (".antt", ".rt"):
        return "".join(TOKEN.sub(token, part) if code else re.sub(r"`([^`\n]+)`", quoted, part) for code, part in code_parts(text, suffix))
    if suffix == ".md":
        return re.sub(r"`([^`\n]+)`", quoted, text)
    return "\n".join(TOKEN.sub(token, line) if re.match(r"(old|new): ", line) else line for line in text.split("\n"))


def tokens(text, suffix):
    out = set()
    for code, part in code_parts(text, suffix):
        if code:
            out.update(TOKEN.findall(part))
    return out


def clashes(root, names):
    for path in files(root, (".antt", ".rt")):
        suffix = os.path.splitext(path)[1]
        have = tokens(read(root, path), suffix)
        for name in sorted(have & set(names)):
            if names[name] in have:
                yield path, name, names[name]


def main(argv):
    root = subprocess.run(["git", "rev-parse", "--show-toplevel"], capture_output=True, text=True, check=True).stdout.strip()
    names = own_names(root)
    together = collections.defaultdict(list)
    for old, new in names.items():
        together[new].append(old)
    if argv == ["--list"]:
        for old, new in sorted(names.items()):
            print(f"{old} {new}")
        for new, olds in sorted(together.items()):
            if len(olds) > 1:
                print(f"together: {' '.join(sorted(olds))} would all be {new}")
        for path, old, new in clashes(root, names):
            print(f"clash: {path}: {old} would be {new}, which stands there already")
        return 0
    changed = 0
    for path in files(root, (".antt", ".rt", ".edit", ".md")):
        text = read(root, path)
        new = respelled(text, names, os.path.splitext(path)[1])
        if new != text:
            with open(os.path.join(root, path), "w", encoding="utf-8") as f:
                f.write(new)
            changed += 1
    print(f"{len(names)} names, {changed} files")
    return 0


if __name__ == "__main__":
    raise SystemExit(main(sys.argv[1:]))
