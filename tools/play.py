#!/usr/bin/env python3
"""Plays one of tools/plays by itself, and says what went otherwise than it must.

play.py NAME WORD..

NAME is a file of tools/plays, whose head says which words it takes; `play.py server out/rs_served` is one. The gate plays all.
"""
import importlib
import pathlib
import sys

from results import end, tell

PLAYS = pathlib.Path(__file__).resolve().parent / "plays"


def main(name="", *words):
    if not (PLAYS / f"{name}.py").exists():
        sys.exit(__doc__)
    play = importlib.import_module(f"plays.{name}")
    if not hasattr(play, "by_words"):
        sys.exit(f"{name} is no play, but what several need")
    results = play.by_words(list(words))
    if results is None:
        sys.exit(play.__doc__)
    end(*tell(results))


if __name__ == "__main__":
    main(*sys.argv[1:])
