#!/usr/bin/env python3
"""Lists each public signature of the crates with its conditions and promises, so that two trees can be compared.

contracts.py [TREE] > FILE, for each of the two; then diff

It reads the text of crates/*/src/**/*.rt but tests: public functions, what public traits ask and what impls
of traits give, each with its `requires` and `ensures`; and how a type is seen (`impl Model`). Each clause
is a line, whatever its layout. Names are without their module, so that a function may move within its crate.
What a definition of specs/ says is not listed: diff those folders.
"""
import pathlib
import re
import sys

LITERAL = re.compile(r"""//[^\n]*|r(#*)".*?"\1|b?"(?:\\.|[^"\\])*"|b?'(?:\\.|[^'\\\n])'""", re.DOTALL)
NEXT = re.compile(
    r"(?P<pub>\bpub )?(?:const )?\bfn (?P<name>\w+)"
    r"|\b(?P<head>(?:impl\b|(?:pub )?(?:trait|mod) )[^;{}]*)\{"
)
CLAUSE = re.compile(r"\s*(?P<words>(?:requires|ensures|decreases)\b[^{};]*)(?=\{)")
GHOST = re.compile(r"\bghost (?!use)(\w+)\s*=\s*(?=\{)")
BODY = re.compile(r"\s*\{")
# (a semicolon in brackets is that of an array's type)
END = re.compile(r"\b(?:requires|ensures|decreases)\b|\{|;(?![^\[\]]*\])")


def blanked(text):
    """The text, with blanks for what is in comments and literals."""
    return LITERAL.sub(lambda it: re.sub(r"[^\n]", " ", it[0]), text)


def behind_block(code, at):
    """Where the block ends that begins at this brace."""
    depth = 0
    for place in range(at, len(code)):
        depth += (code[place] == "{") - (code[place] == "}")
        if not depth:
            return place + 1
    return len(code)


def flat(text):
    """The text on one line, without comments."""
    text = re.sub(r"(?m)//.*$", "", text)
    return re.sub(r",? ([)\]])", r"\1", re.sub(r"([(\[]) ", r"\1", " ".join(text.split())))


def function(text, code, found):
    """The lines of a function's contract, and where the function ends."""
    at = END.search(code, found.end()).start()
    lines = [flat(text[found.start() : at])]
    while clause := CLAUSE.match(code, at):
        at = behind_block(code, clause.end())
        lines.append("    " + flat(text[clause.start() : at]))
    body = BODY.match(code, at)
    return lines, behind_block(code, body.end() - 1) if body else at + 1


def contracts(text, code, start, end, around):
    """The contracts between two places of a file, each with its name; `around` is the head of the impl or trait."""
    is_shown = around.startswith("pub trait") or around.startswith("impl") and " for " in around
    at = start
    while found := NEXT.search(code, at, end):
        if found["name"]:
            lines, at = function(text, code, found)
            if found["pub"] or is_shown:
                yield f"{around} {found['name']}".strip(), lines
            continue
        head, at = flat(text[found.start("head") : found.end("head")]), behind_block(code, found.end() - 1)
        if head.startswith(("mod ", "pub mod ")):
            head = around
        if " for " in head:
            for ghost in GHOST.finditer(code, found.end(), at):
                yield f"{head} {ghost[1]}", [f"ghost {ghost[1]} = " + flat(text[ghost.end() : behind_block(code, ghost.end())])]
        yield from contracts(text, code, found.end(), at - 1, head)


def is_test(file):
    return any(part == "tests" or part.endswith("tests.rt") for part in file.parts)


def main(tree):
    for crate in sorted((tree / "crates").iterdir()):
        listed = []
        for file in sorted(it for it in crate.glob("src/**/*.rt") if not is_test(it)):
            text = file.read_text()
            listed += contracts(text, blanked(text), 0, len(text), "")
        print(f"\n== {crate.name}")
        for name, lines in sorted(listed):
            print(f"\n{name}\n  " + "\n  ".join(lines))


if __name__ == "__main__":
    if len(sys.argv) > 2 or sys.argv[1:2] and sys.argv[1].startswith("-"):
        sys.exit(__doc__)
    main(pathlib.Path(sys.argv[1] if sys.argv[1:] else "."))
