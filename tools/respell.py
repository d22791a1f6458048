#!/usr/bin/env python3
"""Spells the repository's own definitions and lemmas as today's Rattle does: words in snake
case, types in camel case. Run at the top, on files that `port.py` turned.

A name keeps its dash where it joins the function that a lemma is about to the rest, as in
`length-cells_kept`. Names that Rattle makes, such as those of goals, are left alone, and so
are comments, strings and code."""
import glob
import re
import sys

WORD = r"[A-Za-z0-9_'₀-₉]+"
NAME = re.compile(rf"(?<![\w'·-]){WORD}(?:-{WORD})+(?![\w'·-])")
DECLARED = re.compile(
    rf"^\s*(?:abbrev |unfoldable )?(?:pub )?(?:abbrev )?(?:data |record )?({WORD}(?:-{WORD})+)"
    r"(?:\s*[({][^)}]*[)}])*\s*:\s*(\S*)",
    re.M,
)
ABOUT = {"length": "length", "getD": "get_or"}


def antt_files():
    for part in ("specs", "proofs"):
        for name in glob.glob(f"crates/*/{part}/**/*.antt", recursive=True):
            yield name


def spelled(name):
    words = name.split("-")
    if name[0].isupper():
        return "".join(w[0].upper() + w[1:] for w in words)
    if words[0] in ABOUT:
        return ABOUT[words[0]] + "-" + "_".join(words[1:])
    return "_".join(words)


def names():
    found = {}
    for file in antt_files():
        for match in DECLARED.finditer(open(file).read()):
            name, kind = match.groups()
            if not kind.startswith("goal."):
                found.setdefault(name, set()).add(file)
    return {name: spelled(name) for name in found}


def outside(line, mark):
    """The line, and its comment apart."""
    at = line.find(mark)
    while at > 0 and line[at - 1] != " ":
        at = line.find(mark, at + 1)
    return (line, "") if at < 0 else (line[:at], line[at:])


def respell(text, mark, table):
    def one(match):
        before = text_line[0][: match.start()]
        if before.endswith("goal.") or before.count('"') % 2:
            return match.group(0)
        return table.get(match.group(0), match.group(0))

    lines = []
    for line in text.split("\n"):
        code, comment = outside(line, mark)
        text_line = [code]
        lines.append(NAME.sub(one, code) + comment)
    return "\n".join(lines)


def main():
    table = names()
    news = {}
    for old, new in sorted(table.items()):
        news.setdefault(new, []).append(old)
    for new, olds in news.items():
        if len(olds) > 1:
            print("fall together:", new, olds)
    files = [(f, "--") for f in antt_files()]
    files += [(f, "//") for f in glob.glob("crates/*/src/**/*.rt", recursive=True)]
    for file, mark in files:
        text = open(file).read()
        here = set(re.findall(rf"{WORD}(?:-{WORD})*", text))
        for old in here & set(table):
            if table[old] in here:
                print("stands there already:", file, old, table[old])
        turned = respell(text, mark, table)
        if turned != text and "--dry" not in sys.argv:
            open(file, "w").write(turned)
    for page in glob.glob("docs/*.md") + ["README.md"]:
        text = open(page).read()
        turned = re.sub(
            r"`([^`\n]+)`",
            lambda m: "`" + NAME.sub(lambda n: table.get(n.group(0), n.group(0)), m.group(1)) + "`",
            text,
        )
        if turned != text and "--dry" not in sys.argv:
            open(page, "w").write(turned)
    print(len(table), "names")


main()
