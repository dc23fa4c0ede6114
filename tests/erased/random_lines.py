"""Random requests in words: those of tests/lines with other words of the same kinds and more layers around their types, right ones,
ones with operands that don't fit, and broken ones; and requests in WGSL, broken."""
import random
import re

from table import listed

SCALARS, LAYERS, *KINDS = (listed("tables/random.tsv", "words", kind) for kind in "scalar layer space access sampled leaf format binary".split())
NUMBERS = "2 3 4".split()
ODD = ["", "\t", "\r", "größe", "\0", "<", ">", "-", "*", "4097", "é" * 9, "x" * 5000]


class Random(random.Random):
    def __init__(self, seed, requests):
        super().__init__(seed)
        self.requests = requests
        names = sorted({request.split(" ")[1] for request in requests if re.match(r"(call|ctor) \S", request)})
        self.alike = {word: kind for kind in (names, NUMBERS, SCALARS, *KINDS) for word in kind if word not in ("-", "*", "<", ">")}

    def changed(self, words):
        """The words, some of them exchanged for others of their kind, and some scalars with a layer around them."""
        for word in words:
            word = self.choice(self.alike[word]) if word in self.alike and self.random() < 0.3 else word
            yield from [self.choice(LAYERS)] * (word in SCALARS and self.random() < 0.1)
            yield word

    def broken(self, words, blank=" "):
        """The words with one left out, doubled or replaced, or cut."""
        at = self.randrange(len(words))
        change = self.randrange(5)
        if change == 0:
            del words[at]
        elif change == 1:
            words.insert(at, words[at])
        elif change == 2:
            words[at] = self.choice(ODD)
        elif change == 3:
            words[at] = words[at][:-1]
        else:
            words = words[:at + 1]
        return blank.join(words)

    def line(self):
        words = " ".join(self.changed(self.choice(self.requests).split(" "))).split(" ")
        return self.broken(words) if self.randrange(5) == 0 else " ".join(words)


def random_lines(requests, count, seed=1):
    """Lines like the requests, as bytes. One in a thousand isn't UTF-8."""
    found = Random(seed, requests)
    lines = [found.line().encode() for _ in range(count)]
    for at in range(0, count, 1000):
        lines[at] += b"\xff"
    return lines


def broken_requests(requests, seed=2):
    """The requests in WGSL, each with a token left out, doubled or replaced, or cut."""
    found = Random(seed, requests)
    return [found.broken(re.findall(r"\w+|\W", request), "") for request in requests]
