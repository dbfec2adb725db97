#!/usr/bin/env python3
"""Brings the names that this repository declares in specs/ and proofs/ to today's spelling.

Definitions, lemmas, constructors and fields were in camelCase or in kebab-case; they are in snake_case now, and a fact
that was in camelCase begins with a capital. Run once, at the top, after the Rattle kit's port.py:

    python3 tools/spelling.py          # renames
    python3 tools/spelling.py --list   # says old and new names, and which of them fall together

Words of Rattle, functions of src/, strings and the names of the goals (those that a Proof.antt answers) are left alone, and so is what is spelled so already.
"""
import collections
import os
import re
import sys

STOP = r"\s(){}\[\];,.\"`«»"
PART = re.compile(r"[^%s]+" % STOP)
HEAD = re.compile(r"^(?:(?:abbrev|unfoldable|pub|data|record|opaque)\s+)*([^\s:(){}.]+)\s+:\s(.*)$")
INNER = re.compile(r"^\s+(?:(?:abbrev|unfoldable|pub)\s+)*([a-z][^\s:(){}.]*)\s+:\s")
INSIDE = "inside a module: "
FIELD = re.compile(r"^\s+(?:pub\s+)?((?:[^\s:(){}.]+\s+)+):\s")

# Lemmas whose name, in snake case already, would fall together with a definition's in these files.
GIVES_WAY = {
    "crates/digits/proofs/Trim.antt": ["trim_end"],
    "crates/digits/proofs/trimmed/Proof.antt": ["trim_end"],
    "crates/law_page/proofs/Amounts.antt": ["by_length"],
    "crates/lines/proofs/Numbers.antt": ["two_fields"],
    "crates/lines/proofs/clock/setting/Proof.antt": ["two_fields"],
    "crates/modifiers/proofs/Entries.antt": ["too_long"],
}
# Words of the library that a lemma's new name would hide.
WORDS = {"of_fields", "is_finite"}


def files(end):
    for top, folders, names in os.walk("crates"):
        folders[:] = sorted(f for f in folders if f != "out")
        for name in sorted(names):
            if name.endswith(end):
                yield os.path.join(top, name)


def is_goal(name, kind):
    """Whether a line of a Proof.antt answers a goal, or is the proof itself."""
    return "goal." in kind or "tie.Need-" in kind or "tie.invariant" in kind or "tie.decreases" in kind or "statement M" in kind


def snake(name):
    parts = name.split("-")
    parts = [re.sub(r"(?<=[a-z0-9])([A-Z])", lambda m: "_" + m.group(1).lower(), p) for p in parts]
    joined = any(re.search(r"[a-z0-9][A-Z]", p) for p in name.split("-"))
    return ("-" if joined else "_").join(parts)


def declared():
    found = collections.defaultdict(set)
    for path in files(".antt"):
        inside = None
        for line in open(path, encoding="utf-8"):
            line = line.rstrip("\n")
            head = HEAD.match(line)
            if head:
                name, kind = head.groups()
                inside = "block" if re.match(r"^(?:pub\s+)?(?:data|record)\s", line) else None
                if is_goal(name, kind) or kind == "" and "-clause-" in name:
                    continue
                found[name].add((path, kind))
            elif re.match(r"^(?:pub\s+)?(?:data|record)\s", line):
                inside = "block"
            elif not inside and INNER.match(line) and not line.lstrip().startswith("let "):
                found[INNER.match(line).group(1)].add((path, INSIDE + line))
            elif inside and FIELD.match(line):
                for name in FIELD.match(line).group(1).split():
                    found[name].add((path, line))
            elif line and not line.startswith(" "):
                inside = None
    return found


def table():
    new = {}
    found = declared()
    # where a lemma would get the name of a definition, the lemma gives way
    outer = [name for name, places in found.items() if not all(kind.startswith(INSIDE) for _, kind in places)]
    taken = WORDS | {snake(name) for name in outer if "-" not in name}
    for name, places in found.items():
        if re.search(r"-.*_|_.*-", name) or not re.match(r"^[a-z]", name) or not re.search(r"-|[a-z0-9][A-Z]", name):
            continue
        to = snake(name)
        if all(re.search(r"→ Type \d+\s*$|^Type \d+\s*$", kind) for _, kind in places):
            to = name[0].upper() + name[1:]
        elif "-" in name and to in taken:
            to += "_lem"
        new[name] = to
    return new


def turned(text, new, rust):
    comment = r"//[^\n]*" if rust else r"(?:(?<=\n)|(?<=\s)|^)--(?=\s)[^\n]*"
    rest = re.compile(r'"(?:\\.|[^"\\\n])*"|' + comment + r"|«[^»\n]*»" + r"|b?'(?:\\.|[^'\\\n])'" * rust)
    out, at = [], 0
    for m in rest.finditer(text):
        out.append(code(text[at:m.start()], new, rust))
        piece = m.group(0)
        if piece.startswith(("--", "//")):
            piece = PART.sub(lambda p: new.get(p.group(0), p.group(0)) if "-" not in p.group(0) else p.group(0), piece)
        out.append(piece)
        at = m.end()
    out.append(code(text[at:], new, rust))
    return "".join(out)


def code(text, new, rust):
    return PART.sub(lambda p: new.get(p.group(0), p.group(0)), text)


def main():
    new = table()
    if "--list" in sys.argv:
        for old in sorted(new):
            print(old, new[old])
    clash = 0
    for end in (".antt", ".rt"):
        for path in files(end):
            text = open(path, encoding="utf-8").read()
            words = set(PART.findall(text))
            by = collections.defaultdict(set)
            here = dict(new, **{name: name + "_lem" for name in GIVES_WAY.get(path, []) if name in new.values()})
            for w in words:
                by[here.get(w, w)].add(w)
            if "--list" in sys.argv:
                for to, olds in sorted(by.items()):
                    if len(olds) > 1:
                        clash += 1
                        print("together", path, to, sorted(olds))
                continue
            here = dict(new, **{name: name + "_lem" for name in GIVES_WAY.get(path, []) if name in new.values()})
            changed = turned(text, here, end == ".rt")
            if changed != text:
                open(path, "w", encoding="utf-8").write(changed)
    if "--list" in sys.argv:
        print(len(new), "names,", clash, "that fall together")


if __name__ == "__main__":
    main()
