#!/usr/bin/env python3
"""Respells the repository's own definitions and lemmas: words in snake case.

usage: python3 tools/respell.py          at the top of the repository, once, after port.py

A name that crates/*/specs or crates/*/proofs declares and that has a dash or an inner capital is written in snake
case, wherever it stands: in specs/, proofs/, clauses, must-fail edits and docs. Where a lemma would have a
definition's name, it gets _lem. Functions of src/, strings, inputs and outputs keep their names.
"""

import collections
import os
import re
import sys

# what a file of antt declares at the start of a line
DECLARED = re.compile(
    r"^\s*(?:(?:pub|abbrev|unfoldable|record|data|ruleset) )*([^\s(){}.;,:]+)(?=\s*(?:\(|\{|:|$))", re.M)
# and what a line of antt gives a value, with its arguments
GIVEN = re.compile(r"^\s*(?:let )?([^\s(){}.;,:=]+)[^:=\n]*=(?=\s|$)", re.M)
# words of antt that may stand there
WORDS = {"use", "module", "where", "let", "in", "elim", "record", "open", "mutual", "--", "|", "→", "×"}
# and what is bound within a line
BOUND = """isFiller is-filler d-is now-is h-is is-g x-in d-in x-at d-at not-open is-told long-enough not-permitted
no-admit no-act no-do no-withdraw no-check is-mend zero-long not-many small-d""".split()
TOKEN = re.compile(r"[^\s(){}.;,`\"|⌜⌝]+")
IN_TEXT = re.compile(r"[A-Za-z][A-Za-z0-9_'-]*")


def files(root, endings):
    for folder, dirs, names in os.walk(root):
        dirs[:] = sorted(d for d in dirs if d not in ("out", ".git"))
        for name in sorted(names):
            if name.endswith(endings):
                yield os.path.join(folder, name)


def read(path):
    with open(path, encoding="utf-8") as f:
        return f.read()


def snake(name):
    name = name.replace("-", "_")
    return re.sub(r"([a-z0-9])([A-Z])", lambda m: m.group(1) + "_" + m.group(2).lower(), name)


def to_turn(name):
    return re.search(r"[\w'↔]-[\w']", name) or re.match(r"[a-z][a-z0-9]*[A-Z]", name)


def declared(root):
    """Each name that is declared, and the files that declare it."""
    where = collections.defaultdict(set)
    for path in files(os.path.join(root, "crates"), ".antt"):
        if not path.endswith("Proof.antt"):
            text = read(path)
            for name in declared_in(text) | {n for n in BOUND if n in text}:
                where[name].add(os.path.relpath(path, root))
    return where


def declared_in(text):
    return {m.group(1) for form in (DECLARED, GIVEN) for m in form.finditer(text)} - WORDS


def in_specs(paths):
    return any("/specs/" in p for p in paths)


def new_names(where):
    """The new name of each name to turn, and of each lemma that a definition's new name would meet."""
    groups = collections.defaultdict(set)
    for name in where:
        if to_turn(name):
            groups[snake(name)].add(name)
    new, apart = {}, collections.defaultdict(dict)
    for to, names in groups.items():
        if to in where:
            names = names | {to}
        # the one that keeps the name: a definition of specs/, in camel case before one with a dash
        first = sorted(names, key=lambda n: (not in_specs(where[n]), "-" in n, n))[0]
        for name in names:
            to_write = to if name == first or len(names) == 1 else to + "_lem"
            if name != to:
                new[name] = to_write
            elif to_write != to:
                # a name already in snake case is turned where it is declared
                for path in where[name]:
                    apart[path][name] = to_write
    return new, apart


def turn_antt(text, new, is_proof_by_hand):
    out = []
    for line in text.split("\n"):
        code, mark, note = line.partition("--") if re.search(r"(^|\s)--(\s|$)", line) else (line, "", "")
        if mark and not re.search(r"(^|\s)$", code):
            code, mark, note = line, "", ""
        imports = code.lstrip().startswith(("use ", "open ", "unfolding "))

        def turned(m):
            name = m.group(0)
            after_dot = m.start() > 0 and code[m.start() - 1] == "."
            if name not in new or (is_proof_by_hand and after_dot and not imports and "-" in name):
                return name
            return new[name]
        out.append(TOKEN.sub(turned, code) + mark + turn_note(note, new))
    return "\n".join(out)


def turn_note(text, new):
    """Comments and pages: a name with a dash only where it is set as code."""
    def turned(m):
        name = m.group(0)
        if name not in new:
            return name
        marked = m.start() > 0 and text[m.start() - 1] in "`" or m.end() < len(text) and text[m.end()] == "`"
        return new[name] if marked or "-" not in name else name
    return IN_TEXT.sub(turned, text)


def turn_rt(text, new):
    """Sources: ghost lines and clauses hold antt; strings stay."""
    out = []
    for line in text.split("\n"):
        if line.lstrip().startswith("//"):
            out.append(turn_note(line, new))
            continue
        parts = re.split(r'("(?:[^"\\]|\\.)*")', line)
        for i in range(0, len(parts), 2):
            parts[i] = TOKEN.sub(lambda m: new.get(m.group(0), m.group(0)), parts[i])
        out.append("".join(parts))
    return "\n".join(out)


def turn_edit(text, new):
    out = []
    of_antt = bool(re.search(r"^file: .*\.antt$", text, re.M))
    for line in text.split("\n"):
        if line.startswith(("old: ", "new: ")):
            line = line[:5] + (turn_antt(line[5:], new, False) if of_antt else turn_rt(line[5:], new))
        out.append(line)
    return "\n".join(out)


def main():
    root = os.getcwd()
    where = declared(root)
    new, apart = new_names(where)
    count = 0
    for path in files(root, (".antt", ".rt", ".edit", ".md")):
        text = read(path)
        names = dict(new)
        names.update(apart.get(os.path.relpath(path, root), {}))
        if path.endswith("Proof.antt"):
            # its own names are those of goals: they are turned with the proof
            for name in declared_in(text):
                names.pop(name, None)
        if path.endswith(".antt"):
            after = turn_antt(text, names, path.endswith("Proof.antt"))
        elif path.endswith(".rt"):
            after = turn_rt(text, names)
        elif path.endswith(".edit"):
            after = turn_edit(text, names)
        else:
            after = turn_note(text, names)
        if after != text:
            count += 1
            with open(path, "w", encoding="utf-8") as f:
                f.write(after)
    print(f"respell: {len(new)} names, {count} files")
    for path in sorted(apart):
        print("in", path, apart[path])


if __name__ == "__main__":
    sys.exit(main())
