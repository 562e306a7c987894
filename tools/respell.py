#!/usr/bin/env python3
"""Respells the repository's own definitions and lemmas as today's Rattle spells them. Run once, at the top, after the kit's own script.

A definition, constructor, field or binder in camel case gets snake case. A lemma keeps a dash only between two names (`put_head-length`); where a plain
word follows, the dash becomes `_`. A lemma that would fall together with another name gets `_lem`. Functions of src/, types, modules, strings and the names
of goals keep theirs. It prints what fell together, and with `--list` each pair of names.
"""
import os
import re
import subprocess
import sys

CAMEL = re.compile(r"(?<![\w·'])([a-z][a-z0-9_]*[A-Z]\w*)")
DECLARED = re.compile(r"^(?:  )?(?:unfoldable |abbrev |pub )*([^\W\d][\w'-]*)(?: \{[^}]*\})* :(?!:)", re.M)
MEMBER = re.compile(r"^ +([a-z][\w'-]*)(?: [a-z][\w'-]*)* : ", re.M)

# lemmas that the kit's script had respelled already, beside a definition that is respelled only here
FELL = {"crates/list/": ("read_byte",), "crates/quiet_run/": ("from_each", "at_rest")}


def files(*ends):
    for line in subprocess.run(["git", "ls-files", "crates", "docs", "README.md"], capture_output=True, text=True, check=True).stdout.splitlines():
        if line.endswith(ends) and os.path.isfile(line):
            yield line


def read(path):
    with open(path, encoding="utf-8") as f:
        return f.read()


def snake(name):
    name = re.sub(r"([a-z0-9])([A-Z])", r"\1_\2", name)
    return re.sub(r"([A-Z])([A-Z][a-z])", r"\1_\2", name).lower()


def in_snake(text):
    return CAMEL.sub(lambda m: snake(m.group(1)), text)


def names_and_lemmas():
    names, lemmas = {"length", "set", "take", "drop", "get", "map", "replicate", "append", "mod", "div", "pow"}, {}
    for path in files(".antt"):
        text = read(path)
        if "/specs/" in path:
            for name in DECLARED.findall(text):
                if "-" in name:
                    lemmas.setdefault(name, []).append(path)
                else:
                    names.add(in_snake(name))
            names.update(in_snake(n) for n in MEMBER.findall(text) if "-" not in n)
    for path in files(".rt"):
        names.update(re.findall(r"\bfn (\w+)", read(path)))
        names.update(re.findall(r"^ +(?:pub )?(\w+): ", read(path), re.M))
    return names, lemmas


def lemma_name(name, names):
    """The parts are read as the longest names there are; a dash stays between two names."""
    parts = in_snake(name).split("-")
    out, known, i = "", False, 0
    while i < len(parts):
        size = next((k for k in range(len(parts) - i, 0, -1) if "_".join(parts[i : i + k]) in names), 0)
        word = "_".join(parts[i : i + max(size, 1)])
        out += word if not out else ("-" if known and size else "_") + word
        known = bool(size)
        i += max(size, 1)
    return out


def main(argv):
    names, lemmas = names_and_lemmas()
    new = {}
    for name in sorted(lemmas):
        to = lemma_name(name, names)
        if to in names or to in new.values():
            print(f"fell together: {name} as {to}; now {to}_lem")
            to += "_lem"
        new[name] = to
    turned = {k: v for k, v in new.items() if k != v}
    if "--list" in argv:
        for k, v in turned.items():
            print(f"{k} {v}")
        return
    word = re.compile(r"(?<![\w'-])(" + "|".join(sorted(map(re.escape, turned), key=len, reverse=True)) + r")(?![\w'-])")
    mark = re.compile(r"`[^`\n]+`")

    def respelled(text):
        return in_snake(word.sub(lambda m: turned[m.group(1)], text))

    for path in files(".antt", ".rt", ".edit", ".md"):
        old = read(path)
        for folder, fell in FELL.items():
            if path.startswith(folder):
                for name in fell:
                    old = re.sub(rf"(?<![\w'-]){name}(?![\w'-])", name + "_lem", old)
        if path.endswith(".md"):
            text = mark.sub(lambda m: respelled(m.group(0)), old)
        else:
            text = respelled(old)
        if text != read(path):
            with open(path, "w", encoding="utf-8") as f:
                f.write(text)


if __name__ == "__main__":
    main(sys.argv[1:])
