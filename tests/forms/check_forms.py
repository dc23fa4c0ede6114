"""Members, indexes, loads, declarations, assignments and lists of values: the rules in rules.py answer each question of
questions.txt as a browser does, and the Rust crate answers random questions as these rules do.

As a program it prints where the rules answer otherwise.
"""
import os
import sys

sys.path.insert(1, os.path.dirname(os.path.dirname(os.path.abspath(__file__))))
from erased.tools import cargo  # noqa: E402, beside the parts of tests/native
from forms.form_requests import answer  # noqa: E402
from forms.random_requests import random_requests  # noqa: E402
from programs import expect, tell, write  # noqa: E402
from table import texts  # noqa: E402

COUNT = 40_000


def questions():
    """Each request of questions.txt with its answer."""
    return [(request, "\t".join(answer)) for request, *answer in texts("forms/questions.txt")]


def differing():
    """What the rules answer otherwise."""
    for request, expected in questions():
        found = answer(request)
        if found != expected:
            yield f"{request}: {found}, and not {expected}"


def check_forms(folder):
    faults = list(differing())
    expect(not faults, "\n".join(faults))
    asked = "".join(f"{request}\t{answer(request)}\n" for request in random_requests(COUNT))
    cargo(folder, "test", "--quiet", "--test", "tests", "forms::", QUESTIONS=write(asked, folder, "questions.txt"))
    print(f"the rules in tests/forms answer {len(questions())} questions as a browser does, and the crate {COUNT} random ones alike")


if __name__ == "__main__":
    sys.exit(tell(list(differing()), f"{len(questions())} questions are answered as by a browser"))
