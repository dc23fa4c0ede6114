"""What was made of each source, read beside the source."""
import os
import random

from erased.compare import changed, sources, written_out
from erased.tools import made_by_build_script
from programs import TOP, expect, fail

CHANGES = 1000


def compare_sources(folder):
    made = made_by_build_script(folder)
    found = list(sources(os.path.join(TOP, "crates"), made))
    others = written_out(found)
    faults = [fault for source in found if (fault := source.fault(source.made, others))]
    expect(not faults, "\n".join(faults[:20]))
    count = sum(len(source.made) for source in found)
    print(f"{len(found)} sources and the {count} tokens of Rust made of them differ by nothing else than they must")
    see_changes(found, others)


def see_changes(found, others):
    """Of random changes of what was made each is seen."""
    generator = random.Random(60)
    seen = 0
    while seen < CHANGES:
        source = generator.choice([source for source in found if len(source.made) > 50])
        tokens = changed(generator, source.made)
        if tokens == source.made:
            continue
        if not source.fault(tokens, others):
            at = next(k for k, (a, b) in enumerate(zip(source.made, tokens)) if a != b)
            fail(f"{source.path}: not seen: `{' '.join(source.made[at - 3:at + 4])}` as `{' '.join(tokens[at - 3:at + 4])}`")
        seen += 1
    print(f"{seen} random changes of what was made were all seen")
