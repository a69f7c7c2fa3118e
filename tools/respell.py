#!/usr/bin/env python3
"""Spells the names that the repository's .antt files declare as today's Rattle does: words in snake case with plain
underscores, types in upper camel case. Run once, behind the kit's port.py, at the top of the repository.

It goes by words, with the kit's own snake.py: a name of the source (a function, a field, a constant) keeps its spelling,
and so do quoted text and what Rattle makes behind a dot. A name that a function's own proof file declares is not turned
here, since the proof is laid out anew. Where a law and a word would fall together in a file, the law gets the ending
`_lem`. Writes tools/respelled.tsv, each old name with its new one; --check writes nothing.
"""

import collections
import os
import re
import subprocess
import sys

KIT = os.path.dirname(subprocess.run(["rt", "doc"], capture_output=True, text=True, check=True).stdout.strip())
sys.dont_write_bytecode = True
sys.path.insert(0, os.path.join(KIT, "port", "notes", "2026-11-18-names-are-in-snake-case"))
import snake  # noqa: E402

NAME = r'[^\s(){}.;,@"«»:]+'
# A declaration: its marks, record or data, the names, the parameters, and the type as far as its lines begin so.
HEAD = re.compile(
    rf"(?m)^[ \t]*((?:(?:pub|abbrev|unfoldable|mutual) )*)((?:record |data )?)({NAME}(?: {NAME})*)"
    rf"((?: [({{][^\n]*?[)}}])*) : ?(.*(?:\n[ \t]+(?:→|×)[^\n]*)*)"
)
WORDS = {"use", "elim", "let", "where", "in", "do", "rw", "record", "unfolding", "mod"}
# A law and a word of the same spelling, both in one file: the law gets the ending (the kit's rule).
ENDING = "_lem"


def code(text):
    return snake.QUIET.sub(lambda m: re.sub(r"[^\n]", " ", m[0]), text)


def files(kinds):
    for top in sorted(os.listdir("crates")):
        for folder, dirs, names in os.walk(os.path.join("crates", top)):
            dirs[:] = sorted(d for d in dirs if d not in ("out", "target"))
            for n in sorted(names):
                if n.endswith(kinds):
                    yield os.path.join(folder, n)


def declared():
    """Each declared name with whether it is a type, and the names that only functions' own proofs declare."""
    names, types, own = set(), set(), set()
    for path in files((".antt",)):
        with open(path, encoding="utf-8") as f:
            text = code(f.read())
        to = own if os.path.basename(path) == "Proof.antt" else names
        for m in HEAD.finditer(text):
            many = m[3].split()
            if set(many) & WORDS:
                continue
            for name in many:
                to.add(name)
                if m[2] or re.search(r"(?:^|→ )Type \S+$", m[5].strip().replace(" where", "")):
                    types.add(name)
    return names, types, own - names


def new_of(name, types):
    if "◌" in name:
        return "◌".join(new_of(p, types) for p in name.split("◌"))
    if name in types and name[0].isupper():
        return "".join(p[:1].upper() + p[1:] for p in name.split("-"))
    parts = name.split("-")
    out = []
    for p in parts:
        if p[:1].isupper() and p in types:
            out.append(p)
        else:
            out.append(re.sub(r"(?<=[a-z0-9])[A-Z]", lambda m: "_" + m[0].lower(), p))
    return "_".join(out)


def aliases(text):
    """The names that a file brings in under another one."""
    return {b for a, b in re.findall(rf"({NAME}) as ({NAME})[,}}]", text) if not b[0].isupper()}


def modules(text):
    """The names by which a file calls modules."""
    lines = re.findall(r"(?m)^\s*(?:pub |ghost )?use ([\w.]+)(?: as (\w+))?;?$", text)
    return {b or a.split(".")[-1] for a, b in lines}


def word_of(table, fields, heads):
    """How one word of code turns, by what stands before it."""

    def turn(m):
        word = m[0]
        before = re.search(r"(?<![\w.])(\w+)\.$", m.string[: m.start()])
        if before and before[1] in heads:
            return table.get(word, word)
        if m.start() and m.string[m.start() - 1] == "." and m.string[m.start() - 2 : m.start()].strip(" .("):
            return table[word] if word in fields and word in table else word
        return table.get(word, word)

    return turn


def antt(text, table, fields):
    turn = word_of(table, fields, modules(text))
    spans = lambda t: re.sub(r"`[^`]*`", lambda m: snake.PART.sub(lambda p: table.get(p[0], p[0]), m[0]), t)
    camel = {a: b for a, b in table.items() if re.search("[a-z0-9][A-Z]", a)}
    prose = lambda t: re.sub(r"(?<![\w'-])[A-Za-z]\w+(?![\w'-])", lambda m: camel.get(m[0], m[0]), spans(t))
    parts = snake.between(
        snake.QUIET,
        text,
        lambda m: m[0] if m[0][0] == '"' else prose(m[0]),
        lambda t: re.sub(rf"(?<![^\s{{,])({NAME}) as (\1)(?=[,}}])", r"\1", snake.WORD.sub(turn, t)),
    )
    return snake.realigned(text, parts)[0]


def rt(text, table, fields):
    out, at = [], 0
    starts = re.compile(r"//[^\n]*|\"(?:\\.|[^\"\\])*\"|" + snake.CLAUSE.pattern + "|" + snake.GHOST_USE.pattern, re.S)
    while True:
        m = starts.search(text, at)
        if not m:
            break
        out.append(text[at : m.start()])
        end = m.end()
        if m[0][0] == '"':
            out.append(m[0])
        elif m[0].startswith("ghost use"):
            out.append(antt(m[0], table, fields))
        elif m[0][:2] == "//":
            out.append(antt("--" + m[0][2:], table, fields).replace("--", "//", 1))
        else:
            end = snake.closing(text, m.end())
            out += [m[0], antt(text[m.end() : end], table, fields)]
        at = end
    return "".join(out + [text[at:]])


def main():
    check = "--check" in sys.argv
    names, types, own = declared()
    texts, fields = {}, set()
    for path in files((".antt", ".rt")):
        with open(path, encoding="utf-8") as f:
            texts[path] = f.read()
        names |= aliases(texts[path]) if os.path.basename(path) != "Proof.antt" else set()
    for path, text in texts.items():
        if path.endswith(".antt") and os.path.basename(path) != "Proof.antt":
            for m in re.finditer(r"(?m)^ *(?:pub )?record [\s\S]*? where\n((?:(?: .*|--.*)?\n)*)", text + "\n"):
                for many in re.findall(rf"(?m)^ +(?:pub )?({NAME}(?: {NAME})*) :", m[1]):
                    fields |= set(many.split())
    names |= {part for n in names if "◌" in n for part in n.split("◌") if part}
    table = {n: new_of(n, types) for n in names}
    table = {a: b for a, b in table.items() if a != b}
    meets = collections.defaultdict(set)
    for path, text in texts.items():
        if path.endswith(".antt"):
            by = collections.defaultdict(set)
            for w in set(snake.WORD.findall(code(text))):
                by[table.get(w, w)].add(w)
            for new, olds in by.items():
                if len(olds) > 1:
                    meets[(new, tuple(sorted(olds)))].add(path)
    for (new, olds), paths in sorted(meets.items()):
        dashed = [w for w in olds if "-" in w and w in table]
        if len(dashed) == 1:
            table[dashed[0]] = new + ENDING
        where = " ".join(sorted(p.removeprefix("crates/") for p in paths)[:4])
        print("meet:", new, "<-", " ".join(f"{w}:{table.get(w, w)}" for w in olds), "in", where, len(paths))
    print(len(table), "names;", len(fields), "fields")
    if check:
        return
    for path, text in texts.items():
        new = antt(text, table, fields) if path.endswith(".antt") else rt(text, table, fields)
        if new != text:
            with open(path, "w", encoding="utf-8") as f:
                f.write(new)
    with open(os.path.join("tools", "respelled.tsv"), "w", encoding="utf-8") as f:
        f.writelines(f"{a}\t{b}\n" for a, b in sorted(table.items()))


if __name__ == "__main__":
    main()
