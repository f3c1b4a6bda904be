#!/usr/bin/env python3
"""Prints the public functions, methods too, that no test, no row and no measurement calls.

    python3 tools/uncalled.py    # CRATE FUNCTION, a line each; status 1 where there is one

Of the crates that have a file in `beside/test_surface`, and of the types that they hand on, each public function has to be called by a crate
of tests, rows or measurements. Of all other crates it is enough that anybody calls it, else it needn't be there. A function is public
where the `lib.rt` of its crate hands on its name, or the type of which it is a method. It is called where its name stands before a
bracket, whatever it is called on. Functions with empty bodies are laws: nobody calls them.
"""

import os
import re
import sys

TOP = os.path.dirname(os.path.dirname(os.path.abspath(__file__)))
CRATES = os.path.join(TOP, "crates")

# The crates that stand beside the gate; the last one has the calls of the whole surface.
SURFACE = "test_surface"
BESIDE = {it.name for it in os.scandir(os.path.join(TOP, "beside")) if it.is_dir()}

# Crates that call the product and are no part of it.
CALLERS = BESIDE | {"test_calls", "test_histories", "test_kept", "test_kit", "test_kit_seats", "test_clients", "test_program", "test_servers", "test_texts", "test_values"}

COMMENT_OR_TEXT = re.compile(r"//.*|\"(?:[^\"\\]|\\[\s\S])*\"")
CALL = re.compile(r"(?<!fn )\b(\w+)(?:::<[^;(]*>)?\(")
HANDED_ON = re.compile(r"^pub use (\w+)(?:::\w+)*::(\w+|\{[^}]*\});", re.MULTILINE)
FUNCTION = re.compile(r"^( *)pub fn (\w+)", re.MULTILINE)
BLOCK = re.compile(r"^impl(?:<.*?>)? (?:.* for )?(\w+)", re.MULTILINE)
BODY = re.compile(r"(?:^ *| )(\{\}?)$", re.MULTILINE)


def sources(crate):
    """The code of a crate's files by their names, without comments and texts."""
    folder = os.path.join(TOP, "beside" if crate in BESIDE else "crates", crate, "src")
    found = {}
    for at, _, names in os.walk(folder):
        for name in names:
            path = os.path.join(at, name)
            with open(path, encoding="utf-8") as file:
                found[os.path.relpath(path, folder)] = COMMENT_OR_TEXT.sub("", file.read())
    return found


def calls_in(code, crates):
    return {name for crate in crates for text in code[crate].values() for name in CALL.findall(text)}


def handed_on(code, crate):
    """What a crate hands on: names, each with the crate that it takes it from, its own or another."""
    for source, names in HANDED_ON.findall(code[crate].get("lib.rt", "")):
        for name in re.findall(r"\w+", names):
            yield source if source in code else crate, name


def functions(code, crate):
    """The functions that may be public: of each the name, and the type or else the name that has to be handed on."""
    for text in code[crate].values():
        for found in FUNCTION.finditer(text):
            indent, name = found.groups()
            if BODY.search(text, found.end()).group(1) == "{}":
                continue
            blocks = BLOCK.findall(text[: found.start()])
            yield name, blocks[-1] if indent else name


def main():
    gate = [it for it in os.listdir(CRATES) if os.path.isdir(os.path.join(CRATES, it, "src"))]
    code = {crate: sources(crate) for crate in [*gate, *BESIDE]}
    surface = {file.removesuffix("_calls.rattle") for file in code[SURFACE]} & set(code)
    needs_test = {one for crate in surface for one in handed_on(code, crate)}
    by_tests, by_anybody = calls_in(code, CALLERS), calls_in(code, code)
    uncalled = set()
    for crate in set(code) - CALLERS:
        public = {name for _, name in handed_on(code, crate)}
        for name, owner in functions(code, crate):
            called = by_tests if (crate, owner) in needs_test else by_anybody
            if owner in public and name not in called:
                uncalled.add(f"{crate} {name}")
    print("".join(f"{line}\n" for line in sorted(uncalled)), end="")
    return 1 if uncalled else 0


sys.exit(main())
