#!/usr/bin/env python3
"""Holds documents and comments to the code.

    python3 tools/documents.py    # a line for each thing that is said and isn't there; status 1 where there is one

It looks at two things:

- The commands and options of the program stand alike in `--help` (the tables of `crates/program_words/src` that it is made of), in the manual page
  `docs/lpd_server.8` and in `docs/OPERATING.md`: each in all three, with one name for its value.
- A name between back-ticks, in a document or in a comment, that can only be one of ours (a path, a file, or a name with `_`, `::` or a
  capital inside) is there: a path from the top or from the document's own folder, a file's name anywhere, a name as a word of some code,
  ours or the toolchain's.
"""

import os
import re
import subprocess
import sys

TOP = os.path.dirname(os.path.dirname(os.path.abspath(__file__)))
CODE = (".rt", ".antt", ".rattle", ".proof", ".sh", ".py", ".toml", ".edit", ".service", ".txt", ".rows", ".8")
PATH = re.compile(r"[\w.-]+(?:/[\w.*-]+)+/?")
FILE = re.compile(r"[\w-]+\.(?:rt|antt|rattle|proof|sh|py|toml|md|edit|rows|service)")
WORD = re.compile(r"[A-Za-z_][A-Za-z0-9_]*")
# Words of other programs that documents tell of.
OTHERS = {"force_localhost", "page_log"}


def read(path):
    with open(os.path.join(TOP, path), encoding="utf-8", errors="replace") as it:
        return it.read()


def files():
    for at, folders, names in os.walk(TOP):
        folders[:] = sorted(it for it in folders if it not in (".git", "out"))
        for name in sorted(names):
            yield os.path.relpath(os.path.join(at, name), TOP)


# -- options

MADE = re.compile(r'\bid: "([a-z-]+)",\s*shape: Shape::(Option|Repeated|NumberOption|RequiredOption|Counts?|Flag)\b(?:\("([^"]+)")?')
COMMAND = re.compile(r'\bCommandTable \{\s*name: "([a-z]+)"')


def of_help():
    """The options of the tables, each with the name of its value, and the commands."""
    options, commands = {}, set()
    for name in os.listdir(os.path.join(TOP, "crates/program_words/src")):
        text = read(f"crates/program_words/src/{name}")
        commands.update(COMMAND.findall(text))
        for option, shape, value in MADE.findall(text):
            options.setdefault(option, set()).add("" if shape == "Flag" else value)
    return options, commands


def of_page():
    text = read("docs/lpd_server.8").replace("\\-", "-")
    options = {}
    for option, value, below in re.findall(r'^\.(?:BI?|RB \[) ?--([a-z-]+)(?: " ([^"\n]+)"|\n\.IR? (\S+)| \])?', text, re.M):
        options.setdefault(option, set()).add(value or below)
    return options, set(re.findall(r"^\.B lpd_server ([a-z]+)$", text, re.M))


def of_guide():
    text = read("docs/OPERATING.md")
    options = {}
    for option, value in re.findall(r"^\| `--([a-z-]+)(?: ([A-Z=:\[\]]+))?` \|", text, re.M):
        options.setdefault(option, set()).add(value)
    for line in re.findall(r"^\| `((?:[a-z]+) [A-Z].*?)` \|", text, re.M):
        for option, value in re.findall(r"--([a-z-]+)(?: ([A-Z][A-Z=.]*))?", line):
            options.setdefault(option, set()).add(value)
    return options, set(re.findall(r"^\| `([a-z]+) [A-Z]", text, re.M))


def options_differ():
    wrong = []
    lists = {"--help": of_help(), "docs/lpd_server.8": of_page(), "docs/OPERATING.md": of_guide()}
    own = {"help", "version"}
    for option in sorted(set().union(*(it[0] for it in lists.values())) - own):
        said = {name: it[0].get(option) for name, it in lists.items()}
        for name, values in said.items():
            if values is None:
                wrong.append(f"{name}: --{option} is missing")
        values = {name: {it for it in found if it} for name, found in said.items() if found is not None}
        if len({frozenset(it) for it in values.values()}) > 1:
            wrong.append(f"--{option} has a value of another name: " + ", ".join(f"{name} {'/'.join(sorted(it)) or 'none'}" for name, it in values.items()))
    shown = lists["--help"][1]
    for name in ("docs/lpd_server.8", "docs/OPERATING.md"):
        wrong += [f"{name}: the command {it} is missing" for it in sorted(shown - lists[name][1])]
    return wrong


# -- names

def kit():
    """The folder of the toolchain's sources, which lies beside the page that `rt doc` names."""
    page = subprocess.run(["rt", "doc"], capture_output=True, text=True, check=True).stdout.strip()
    return os.path.join(os.path.dirname(page), "rattle")


def known_words():
    """Each word of code, ours and the toolchain's, and of the texts in it."""
    words = set()
    sources = kit()
    for root in (TOP, sources):
        for at, folders, names in os.walk(root):
            folders[:] = [it for it in folders if it not in (".git", "out")]
            for name in names:
                words.update((name, name.partition(".")[0]))
                if name.endswith(CODE) or root == sources and name.endswith(".md"):
                    with open(os.path.join(at, name), encoding="utf-8", errors="replace") as it:
                        text = it.read()
                    if name.endswith((".rt", ".rattle")):
                        text = re.sub(r"//.*", "", text)
                    elif name.endswith((".antt", ".proof")):
                        text = re.sub(r"--.*", "", text)
                    words.update(WORD.findall(text))
    return words


def quoted(path, text):
    """What stands between back-ticks, in a document everywhere and in code in its comments."""
    for number, line in enumerate(text.split("\n"), 1):
        if not path.endswith(".md"):
            found = re.search(r"(?://|--)(.*)", line)
            line = found[1] if found else ""
        for it in re.findall(r"`([^`]+)`", line):
            yield number, it


def is_ours(word):
    """Whether a word can only be a name of code. Names of the protocol's files, as dfA001host, and options of other programs are not."""
    is_other = re.match(r"[cd]f[A-Z]|[A-Z]+_[a-z]", word)
    return not is_other and ("_" in word.strip("_") or bool(re.search(r"[a-z][A-Z][a-z]", word)))


def names_are_missing():
    every = set(files())
    folders = {os.path.dirname(it) for it in every}
    for it in list(folders):
        while it:
            folders.add(it)
            it = os.path.dirname(it)
    base = {os.path.basename(it) for it in every}
    words = known_words() | OTHERS
    wrong = []
    for path in sorted(every):
        if not path.endswith((".md", ".rt", ".antt", ".rattle", ".proof")):
            continue
        own = path.split("/")[:2]
        near = ["", os.path.dirname(path), "/".join(own), "docs", "crates", f"{'/'.join(own)}/src", f"{'/'.join(own)}/specs", f"{'/'.join(own)}/proofs"]
        lines = read(path).split("\n")
        for number, said in quoted(path, "\n".join(lines)):
            if "there is none" in lines[number - 1]:
                continue
            found = PATH.fullmatch(said.split(" ")[0].rstrip(":,"))
            if found and re.search(r"\.(rt|antt|sh|py|md|edit|rattle|proof)$", found[0]) and "*" not in found[0]:
                at = found[0]
                places = [os.path.normpath(os.path.join(it, at)) for it in near]
                if not any(it in every or it in folders for it in places) and not any(it.endswith("/" + at) for it in every):
                    wrong.append(f"{path}:{number}: there is no {at}")
                continue
            if FILE.fullmatch(said):
                other = re.sub(r"\.rt$", ".rattle", re.sub(r"\.antt$", ".proof", said))
                if said not in base and other not in base and said not in words:
                    wrong.append(f"{path}:{number}: there is no {said}")
                continue
            if ".." in said:
                continue
            for word in WORD.findall(re.sub(r"\{[^}]*\}|\"[^\"]*\"", " ", said)):
                if is_ours(word) and word not in words and f"{word}.rt" not in base:
                    wrong.append(f"{path}:{number}: nothing is called {word}")
    return wrong


def main():
    wrong = options_differ() + names_are_missing()
    for it in wrong:
        print(it)
    return 1 if wrong else 0


if __name__ == "__main__":
    sys.exit(main())
