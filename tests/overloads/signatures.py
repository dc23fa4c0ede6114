"""Signatures of overloads as the program prints them, and the candidates that each stands for."""
import itertools
import re

from forms.kinds import is_abstract, is_constructible
from spelling import split_list
from table import listed, texts

NAME = re.compile(r"\w+|[^\w(]+")
SHAPE = re.compile(r"(?:<([^()]*)>)?\(([^()]*)\)(?: -> ([^,]+))?((?:, [A-Z]+: [^,]+)*)")
SIZE = re.compile(r"(?<=vec)[A-Z]|(?<=mat)[A-Z]|(?<=mat.x)[A-Z]")
LETTER = re.compile(r"(?<![A-Za-z0-9])[A-Z]+(?![A-Za-z0-9_])")

KINDS = {kind: words for kind, *words in texts("tables/calls.tsv", "kind")}
CHANNEL = "channel type of F"

# What a letter for any type stands for: the types that pointers and runtime-sized arrays are of in the calls.
SAMPLES = listed("tables/calls.tsv", "sample")


def name_of(line):
    return NAME.match(line)[0]


def with_sizes(line):
    """The signature for each choice of its numbers of components, columns and rows."""
    letters = sorted(set(SIZE.findall(line)))
    for sizes in itertools.product("234", repeat=len(letters)):
        chosen = dict(zip(letters, sizes))
        yield SIZE.sub(lambda match: chosen[match[0]], line)


def options(words, formats):
    """What a letter may stand for by itself."""
    if words in KINDS:
        return KINDS[words]
    if words == CHANNEL:
        return KINDS["32-bit number"]
    if words == "type":
        return SAMPLES
    if words == "concrete constructible type":
        return [t for t in SAMPLES if is_constructible(t) and not is_abstract(t)]
    if words == "texel format":
        return list(formats)
    if words.startswith("format of "):
        return [f for f, channel in formats.items() if words == f"format of {channel}"]
    return words.split(" or ")


def choices(letters, formats):
    """What the letters may stand for together. Each format is given with the type of its channels."""
    channels = [letter for letter, words in letters.items() if words == CHANNEL]
    for chosen in itertools.product(*(options(words, formats) for words in letters.values())):
        chosen = dict(zip(letters, chosen))
        if all(chosen[letter] == formats[chosen["F"]] for letter in channels):
            yield chosen


def answer_of(result):
    """What the program answers for a result. A struct has another name there than in a signature."""
    if result is None:
        return "no value"
    if result.startswith("__atomic_compare_exchange_result<"):
        return "__atomic_compare_exchange_result"
    return result.replace("_AbstractFloat", "_abstract")


def candidates(line, formats):
    """The candidates of a signature: the template or None, the parameters, and what a call answers. A letter of which nothing
    is said stays."""
    for sized in with_sizes(line):
        match = SHAPE.fullmatch(sized[len(name_of(sized)):])
        if match is None:
            raise ValueError(f"this is no signature: {line}")
        template, parameters, result, tail = match.groups()
        letters = dict(letter.split(": ") for letter in split_list(tail))
        if "F" in LETTER.findall(parameters):
            letters.setdefault("F", "texel format")
        for chosen in choices(letters, formats):
            template_now, parameters_now, result_now = (
                text and LETTER.sub(lambda match: chosen.get(*match.group(0, 0)), text) for text in (template, parameters, result)
            )
            yield template_now, tuple(split_list(parameters_now)), answer_of(result_now)
