"""What the recipes of read cases and of write cases share.

A recipe takes a random source and a turn, and gives a detail and the input. A recipe whose name starts with "refusal N" must
come out as that refusal, by the scope paper's table.
"""

from dataclasses import replace

from reader import LEAST_WORK_LENGTH
from sample_maps import SMALL_SAMPLES, sample_redrawn, with_bans


def sample_without_bans(rng, turn):
    """A sample of each kind in turn."""
    return sample_redrawn(rng, SMALL_SAMPLES[turn % len(SMALL_SAMPLES)](rng))


def any_sample(rng, turn):
    """The same with bans or without. One time out of four they may be on the stretch itself."""
    return with_bans(rng, sample_without_bans(rng, turn), rng.random() < 0.75)


def sample_with_free_stretch(rng, turn):
    """The same with no ban on the stretch."""
    return with_bans(rng, sample_without_bans(rng, turn), True)


def until_found(attempt):
    """Tries until something is found. Only an oracle that is wrong needs more tries than these."""
    for _ in range(1_000):
        found = attempt()
        if found is not None:
            return found
    raise RuntimeError("nothing found")


def work_area_exactly_enough(recipe):
    """What another recipe makes, with the least work area or one more."""
    def with_work_area(rng, turn):
        label, given = recipe(rng, turn)
        return label, replace(given, work_length=LEAST_WORK_LENGTH + turn % 2)
    return with_work_area


def work_area_too_short(recipe, *faults):
    """Refusal 1 stands above everything else, so that the rest may be wrong as well: by one of the faults, or by none."""
    def with_work_area(rng, turn):
        label, given = recipe(rng, turn)
        changes = ({}, *faults)[turn % (1 + len(faults))]
        work_length = LEAST_WORK_LENGTH - 1 if turn % 2 == 0 else 0
        return label, replace(given, **changes, work_length=work_length)
    return with_work_area
