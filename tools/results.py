"""How the checks beside the proofs tell their results."""
import sys


def tell(results):
    """Prints each result, a name and what is wrong with it or None; answers how many held, and how many didn't."""
    held = differ = 0
    for name, wrong in results:
        print(f"{name}: {wrong or 'as written down'}")
        if wrong:
            differ += 1
        else:
            held += 1
    return held, differ


def end(held, differ):
    """Ends a check that was called by itself; one that tried nothing has failed."""
    print(f"{held} passed, {differ} failed")
    sys.exit(1 if differ or not held else 0)
