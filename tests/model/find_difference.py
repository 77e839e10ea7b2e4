"""find_difference.py CASES: the index of the first case in which this model gives another answer.

mistakes.py runs it in a copy of the model that has a mistake. CASES is what its write_cases wrote.
It prints "none" where all answers are the known ones, and says where the model broke off: a
mistake that is found so tells little about the cases.
"""

import pickle
import sys
from collections import Counter
from pathlib import Path

from pair import LawBroken, pair
from public_part import Witness
from run import Answer, answers


def difference(files: tuple, known: tuple) -> str:
    """How the answers differ, as words, or nothing."""
    try:
        return difference_of_pair(files, known) if len(files) == 3 else difference_of_case(
            files, known)
    except LawBroken as broken:
        return f"breaks the law {broken}"
    except Exception as error:  # a model with a mistake may do anything
        return type(error).__name__


def difference_of_case(files: tuple, known: tuple) -> str:
    found = answers(*files, Counter())
    run, release = (Answer(**answer) for answer in known)
    if found.run != run:
        return "differs"
    return "" if found.release == release else "differs in its releases"


def difference_of_pair(files: tuple, known: tuple) -> str:
    """Without an answer that is known, the pair is held to the law alone."""
    watch = None if known else Witness(Counter())
    found = pair(*files, Counter(), watch).answer
    return "differs" if known and found != Answer(**known[0]) else ""


def main() -> None:
    cases = pickle.loads(Path(sys.argv[1]).read_bytes())
    for index, (files, known) in enumerate(cases):
        how = difference(files, known)
        if how:
            print(index, how)
            return
    print("none")


if __name__ == "__main__":
    main()
