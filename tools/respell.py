#!/usr/bin/env python3
"""Spells the definitions and lemmas of specs/ and proofs/ in snake case, once, after the kit's port.py.

usage: python3 tools/respell.py     at the top of the repository

The names are those that a file of specs/, or a file right in proofs/, declares with a small first letter and a dash or a capital.
They turn in .antt files, in clauses and 'ghost use' lines of .rt files, in must-fail edits, and in code spans of .md files and comments.
A lemma whose name would be its definition's gets _lem. Names of src/, and the goals and labels that Rattle makes, stay.
"""
import collections
import glob
import re
import subprocess
import tempfile

WORD = re.compile(r"[^\s(){}.;,@\"«»`\[\]]+")
DECLARED = re.compile(r"^(\s*)(?:abbrev |unfoldable )*(?:pub )?([^\s:(){}]+)((?: [^\s:(){}=]+)*) : ")
SPAN = re.compile(r"`[^`\n]+`")
# Labels that Rattle makes stand behind these.
HEADS = re.compile(r"^(?:c|w|l|g|t|goal|tie|args|initial|fn|new|auto|ranges|before)\d*'*$")


def snake(name):
    name = re.sub(r"([a-z0-9])([A-Z])", r"\1_\2", name.replace("-", "_"))
    return name.lower()


def files(*patterns):
    return sorted(f for p in patterns for f in glob.glob(p, recursive=True) if "/out/" not in f)


def read(path):
    with open(path, encoding="utf-8") as f:
        return f.read()


def declared(top="."):
    found = collections.defaultdict(set)
    fields = set()
    for path in files(top + "/crates/*/specs/**/*.antt", top + "/crates/*/proofs/*.antt"):
        in_record = False
        for line in read(path).split("\n"):
            if re.match(r"\s*(?:abbrev )?(?:pub )?record ", line):
                in_record = True
            elif line and not line.startswith(" "):
                in_record = False
            m = DECLARED.match(line)
            if not m:
                continue
            for name in [m[2], *m[3].split()]:
                found[name].add(path)
                if in_record and m[1]:
                    fields.add(name)
    # Parameters and names given by 'as' too: the library's words have no capital inside.
    for path in files(top + "/crates/*/specs/**/*.antt", top + "/crates/*/proofs/*.antt", top + "/crates/*/src/*.rt"):
        if "/lending/" not in path:
            for name in re.findall(r"(?:^|[\s({])([a-z][a-z0-9]*[A-Z][A-Za-z0-9]*)(?=[\s)},:])", re.sub(r"(?:--|//).*", "", read(path))):
                found[name].add(path)
    odd = {n for n in found if n[0].islower() and (re.search("[A-Z]", n) or "-" in n)}
    return odd, fields


def declared_before():
    """The names at HEAD, before port.py, which has turned some already."""
    with tempfile.TemporaryDirectory() as top:
        tar = subprocess.run(["git", "archive", "HEAD", "crates"], capture_output=True, check=True).stdout
        subprocess.run(["tar", "-x", "-C", top], input=tar, check=True)
        return declared(top)[0]


def table(odd):
    taken = {snake(n) for n in odd if "-" not in n}
    return {n: snake(n) + ("_lem" if "-" in n and snake(n) in taken else "") for n in odd}


def turn(text, names, fields):
    """Each whole word of the table, but for what stands behind a dot of a value, if it is no field of ours."""

    def one(m):
        word = m[0]
        core = word.rstrip("'") if word not in names else word
        if core not in names:
            return word
        if text[m.start() - 1 : m.start()] == ".":
            head = re.search(r"([^\s(){};,]*)\.$", text[: m.start()])
            path = head[1].split(".") if head else [""]
            if "-" in core and not path[0][:1].isupper() and core not in fields:
                return word
            if HEADS.match(path[-1]) and "-" in core:
                return word
        return names[core] + word[len(core) :]

    return WORD.sub(one, text)


def in_spans(text, names, fields):
    return SPAN.sub(lambda m: turn(m[0], names, fields), text)


def code(text, names, fields, comment):
    out = []
    for line in text.split("\n"):
        at = re.search(rf"(?:^|\s){comment}", line)
        cut = at.end() if at else len(line)
        out.append(turn(line[:cut], names, fields) + in_spans(line[cut:], names, fields))
    return "\n".join(out)


def edit(text, names, fields):
    lines = text.split("\n")
    return "\n".join(turn(l, names, fields) if re.match("(?:old|new):", l) else l for l in lines)


def main():
    odd, fields = declared()
    names = table(odd)
    # Edits and pages have the spelling of HEAD.
    all_names = table(odd | declared_before())
    for path in files("crates/**/*.antt", "crates/**/*.rt", "crates/**/*.edit", "crates/**/*.md", "*.md", "docs/*.md", "docs/landings/*.md"):
        if re.match(r"docs/0\d-|docs/PORT", path):
            continue
        old = read(path)
        if path.endswith(".antt"):
            new = code(old, names, fields, "--")
        elif path.endswith(".rt"):
            new = code(old, names, fields, "//")
        elif path.endswith(".edit"):
            new = edit(old, all_names, fields)
        else:
            new = in_spans(old, all_names, fields)
        if new != old:
            with open(path, "w", encoding="utf-8") as f:
                f.write(new)
    print(f"respell: {len(names)} names")
    for old in sorted(names):
        print(f"{old}\t{names[old]}")


if __name__ == "__main__":
    main()
