"""Plays recorded sessions to a built rs_replay with a key of lists and rules left out, which must show in what comes out.

play.py ignored PROGRAM FOLDER

Of each configuration of FOLDER (`sessions`) one test of a rule, one key of communities that are taken away, one `use`, one range of
lengths or one entry of a list is left out at a time, and the session is played by what is left: were the server to pass over that
key, it would do the same. What is written must differ from NAME.out, for each key of the session at one of its places or more. At
least SESSIONS sessions must use these keys.
"""
import pathlib
import re
import subprocess
import tempfile


SESSIONS = 30
# The keys of rules that came with lists. Each value is a text, a number, true or false, or an array of texts.
KEYS = "prefix_in|path_longer|path_in|origin_in|first_as_is_peer|community|large_community|strip|strip_large"
VALUE = r'(?:"[^"]*"|\[[^]]*\]|\w+)'
TEST = re.compile(rf"\b(?:{KEYS}) = {VALUE}, |, (?:{KEYS}) = {VALUE}(?= \}})")
USE = re.compile(r'\{ use = "[^"]*" \},? ?')
# A range of lengths, and an entry beside others, of a list.
RANGE = re.compile(r'\^[-+\d]+(?=")')
ENTRY = re.compile(r'(?<=\[)(?:"[^"]*"|\d+), |, (?:"[^"]*"|\d+)(?=[],])')
ARRAY = re.compile(r"^(?:prefixes|ases) = \[.*\]$", re.M)
LISTED = re.compile(rf"\b(?:{KEYS}|use) = ")


def without(text):
    """The key that is left out, and the text without it."""
    for it in TEST.finditer(text):
        yield it[0].strip(" ,").partition(" ")[0], text[: it.start()] + text[it.end() :]
    for kind, places in (("use", USE.finditer(text)), ("a range", RANGE.finditer(text)), ("an entry", entries(text))):
        for it in places:
            yield kind, text[: it.start()] + text[it.end() :]


def entries(text):
    """The places of the entries of lists."""
    for array in ARRAY.finditer(text):
        yield from ENTRY.finditer(text, array.start(), array.end())


def written(program, text, trace):
    """What is written by the configuration of this text."""
    with tempfile.NamedTemporaryFile("w", suffix=".toml") as file:
        file.write(text)
        file.flush()
        return subprocess.run([program, "--config", file.name], input=trace, capture_output=True, timeout=60).stdout


def play_ignored(program, folder):
    """What is left out of each session, and what is wrong or None."""
    used = 0
    for config in sorted(folder.glob("*.toml")):
        text = config.read_text()
        if not LISTED.search(text) or config.with_suffix(".status").exists():
            continue
        used += 1
        trace, wanted = config.with_suffix(".trace").read_bytes(), config.with_suffix(".out").read_bytes()
        found = {}
        for key, left in without(text):
            found[key] = found.get(key, False) or written(program, left, trace) != wanted
        same = [key for key, differs in found.items() if not differs]
        yield f"session {config.stem} without {', '.join(found) or 'a key'}", f"nothing changes without {', '.join(same)}" if same else None
    yield f"{used} sessions use keys of lists and rules", None if used >= SESSIONS else f"fewer than {SESSIONS}"


def by_words(words):
    """The results, by the words of a command behind the play's name; None where these are others."""
    if len(words) == 2:
        return play_ignored(pathlib.Path(words[0]).resolve(), pathlib.Path(words[1]))
    return None
