#!/usr/bin/env python3
"""Brings the names of the repository's own definitions and lemmas to the spelling of today's Rattle: words in snake case,
types and modules in upper camel case, a prime as an apostrophe. Run once, at the top, after the toolchain's port.py.

It goes by text: every name in lower camel case that an .antt file here declares, or a use line brings in by `as`,
wherever it stands alone in .antt, .rt and .edit files, and between backquotes in README.md and docs/. Functions of src/ are
in snake case already; exported C names, inputs and outputs are not touched. A lemma or a field that would fall together
with the new name of a definition gets _lem; a label of a clause that would gets another word.
"""
import os
import re
import sys

# words of the older library that stand in names of lemmas here, as the library has them today
OLD_WORDS = {"leZ": "int_le", "ltZ": "int_lt", "getD": "get_or", "natAbs": "nat_abs", "negℤ": "neg_ℤ"}
WORD = re.compile(r"(?<![\w′'])[A-Za-zℤ_][\w′']*(?:[-+*][\w′'+*≡≤<∈]+)*")
CAMEL = re.compile(r"[a-z0-9ℤ][A-Zℤ]|′")


def snake(part):
    """One part of a name, between dashes."""
    if part in OLD_WORDS:
        return OLD_WORDS[part]
    part = part.replace("′", "'")
    if not part[:1].islower():
        return part
    part = re.sub(r"([a-z0-9'])([A-Z])", r"\1_\2", part)
    return "".join(c.lower() if c.isascii() else c for c in part)


def respelled(word):
    return "-".join(snake(p) for p in word.split("-"))


def files(kinds, *tops):
    for top in tops:
        if os.path.isfile(top):
            yield top
        for folder, dirs, names in os.walk(top):
            dirs[:] = sorted(d for d in dirs if d not in ("out", ".git", "target"))
            for n in sorted(names):
                if n.endswith(kinds):
                    yield os.path.join(folder, n)


def words_of(text):
    return {m.group(0) for m in WORD.finditer(text)}


def turned(text, table):
    return WORD.sub(lambda m: table.get(m.group(0), m.group(0)), text)


PATH = re.compile(r"Rattle\.[\w.']+")
OURS = re.compile(r"(?m)^\s*(?:abbrev\s+|unfoldable\s+|ruleset\s+)?(?:pub\s+)?([A-Za-z_][\w'′]*(?:-[\w'′*+]+)*)\s*(?:\{[^}]*\}\s*)?(?:\([^)]*\)\s*)*[:=]\s|\bas\s+([a-z][\w'′]*)")
DECLARED = re.compile(r"(?m)^\s*(?:pub\s+)?([a-z][\w']*(?:-[\w'*+]+)*)\s*(?:\{[^}]*\}\s*)?(?:\([^)]*\)\s*)*:\s")
LABEL = re.compile(r"\b(requires|ensures)( [a-z_]+)( \{)")


def without_paths(text):
    return PATH.sub(lambda m: "Rattle" if not m.group(0).endswith(".") else "Rattle.", text)


def turned_outside_paths(text, table):
    """Paths name modules, which have the names of functions: they stay."""
    out, at = [], 0
    for m in PATH.finditer(text):
        out += [turned(text[at:m.start()], table), m.group(0)]
        at = m.end()
    return "".join(out + [turned(text[at:], table)])


def survey():
    """The table of new names, and the lemmas and fields here that would have a definition's new name: those get _lem."""
    table, lemmas = {}, {}
    texts = {}
    for path in files((".antt", ".rt"), "crates"):
        with open(path, encoding="utf-8") as f:
            texts[path] = f.read()
    declared, ours = set(), set()
    for text in texts.values():
        ours |= {w for m in OURS.finditer(text) for w in m.groups() if w}
    for path, text in texts.items():
        if path.endswith(".antt"):
            declared |= set(DECLARED.findall(text))
        for w in words_of(without_paths(re.sub(r'"[^"\n]*"', '""', text))):
            if w in ours and respelled(w) != w and (path.endswith(".antt") or w[:1].islower()):
                table[w] = respelled(w)
    for path, text in texts.items():
        have = words_of(without_paths(text))
        for w in have:
            new = table.get(w)
            if new in have and new in declared and path.endswith(".antt"):
                lemmas[new] = new + "_lem"
    return table, lemmas


def relabelled(text, news):
    """A clause's label that would be a definition's new name gets another."""

    def one(m):
        label = m.group(2).strip()
        if label in news:
            label = label[: -len("_after")] + "_new" if label.endswith("_after") else label + "_is"
        return f"{m.group(1)} {label}{m.group(3)}"

    return LABEL.sub(one, text)


def rewrite(path, turn):
    with open(path, encoding="utf-8") as f:
        old = f.read()
    new = turn(old)
    if new != old:
        with open(path, "w", encoding="utf-8") as f:
            f.write(new)


def main():
    table, lemmas = survey()
    if "--table" in sys.argv:
        print("\n".join(f"{a} {b}" for a, b in sorted(table.items())))
        print("\n".join(f"fell together: {a} {b}" for a, b in sorted(lemmas.items())))
        return 0
    news = set(table.values())
    both = lemmas | table
    for path in list(files((".antt",), "crates")):
        rewrite(path, lambda t: turned_outside_paths(t, both))
    for path in list(files((".rt", ".edit"), "crates")):
        rewrite(path, lambda t: turned_outside_paths(relabelled(t, news), table))
    for path in files((".md",), "docs", "README.md", "CONTRIBUTING.md"):
        if os.sep + "changes" + os.sep not in path:
            rewrite(path, lambda t: re.sub(r"`[^`\n]+`", lambda m: turned(m.group(0), table), t))
    print(f"{len(table)} names; {len(lemmas)} lemmas and fields with _lem: {' '.join(sorted(lemmas))}")
    return 0


if __name__ == "__main__":
    raise SystemExit(main())
