"""Readings out of a message (recipes.py says what a recipe is). Every other one is of a point along a line."""

from dataclasses import replace

from damages import map_damage
from depot_map import LARGEST_NUMBER, map_to_bytes, read_map, write_number
from front import SUM_MODULUS, front_bytes, front_of, map_sum
from message import Message, bytes_of_part
from message_calls import ReadingOfMessage
from message_recipes import MAP_REFUSALS, SHORT_WORK_LENGTHS, WORK_LENGTHS, any_refused_map
from outcome import Refused, RefusedCall
from point_along_line import write_point
from point_read_recipes import POINT_READ_RECIPES
from reader import LEAST_WORK_LENGTH
from read_recipes import AMPLE_LINES, READ_RECIPES
from received_recipes import MOST_BYTES_OF_A_NUMBER, longer_form, references, with_other_byte
from recipes import any_sample, until_found
from reference import LONGEST_REFERENCE
from sample_maps import ridge_map
from summed_maps import FEW_BYTES, SUM_EDGES, agreeing_maps, map_of_bytes, map_with_sum, maps_by_front, small_maps
from writer import write

RECIPES_OF_READERS = {False: READ_RECIPES, True: POINT_READ_RECIPES}
# Recipes whose maps or line buffers are large, and those that are refused before a message is looked at.
OF_LARGE_MAPS = ("longest reference", "many lines", "most lines", "most lines with bans", "full size", "refusal 16, point 0 of 65",
                 "refusal 16, point 64 of 65", "refusal 17, leg 0 of 64", "refusal 17, leg 63 of 64")
REFUSED_BEFORE = ("refusal 1", *(f"refusal {number}" for number in MAP_REFUSALS))
MOST_BYTES_OF_A_SMALL_MAP = 300
RIDGE = map_to_bytes(ridge_map())
# The recipe that has all of the readers' own, and those whose maps or messages take much room.
AS_BY_ITSELF, LARGE_MAP, LONG_MESSAGE = "as by itself", "large map", "long message"


def given_by_itself(rng, is_point, left_out, turn):
    """What a recipe for the reader by itself makes on a small map, and its name. Each of the recipes has its turn."""
    names = [name for name in RECIPES_OF_READERS[is_point] if name not in (*OF_LARGE_MAPS, *left_out)]
    name = names[turn % len(names)]

    def attempt():
        _, given = RECIPES_OF_READERS[is_point][name](rng, rng.randrange(1_000))
        return given if len(given.map_bytes) <= MOST_BYTES_OF_A_SMALL_MAP else None
    return name, until_found(attempt)


def some_reference(rng, map_bytes, is_point):
    """One that the writer gives for a line of the map, of its first two where they are told apart."""
    def attempt():
        line = rng.randrange(2)
        written = write_point(map_bytes, line, 0, 1, 2, LEAST_WORK_LENGTH, 17) if is_point else write(map_bytes, (line,), 0, 0, LEAST_WORK_LENGTH, 459)
        return None if isinstance(written, Refused) else written.reference
    return until_found(attempt)


def other_references(rng):
    return references(rng, [rng.choice((1, 16, 17, 23, 130, rng.randrange(1, 40))) for _ in range(rng.randrange(3))])


def message_with(rng, map_bytes, reference):
    """A message for the map: the front alone, with the reference in it, among others or not, without it, or with any bytes behind the front."""
    front = front_of(map_bytes)
    whole = other_references(rng) + (write_number(len(reference)) + reference) + other_references(rng)
    kinds = (b"", whole, whole, other_references(rng), rng.randbytes(rng.randrange(1, 30)), b"\x00", b"\x80\x80")
    return front + rng.choice(kinds)


def read_of(given, is_point, message):
    return ReadingOfMessage(given.map_bytes, message, given.reference, is_point, given.work_length, given.line_room)


def as_by_itself(rng, turn):
    """A message for the same map: the answer is that of the reader by itself."""
    is_point = turn % 2 == 1
    name, given = given_by_itself(rng, is_point, (), turn // 2)
    return name, read_of(given, is_point, message_with(rng, given.map_bytes, given.reference))


def on_each_small_map(rng, turn):
    """Maps whose sums, or counts of bytes, are at their edges."""
    map_bytes, is_point = small_maps()[turn // 2 % len(small_maps())], turn % 2 == 1
    reference = some_reference(rng, map_bytes, is_point)
    return f"sum {map_sum(map_bytes)}", ReadingOfMessage(map_bytes, message_with(rng, map_bytes, reference), reference, is_point)


def sent(rng, turn):
    """References that the writer gives for several stretches or points, put into a message and read out of it."""
    sample, is_point = any_sample(rng, turn // 2 % 9), turn % 2 == 1
    map_bytes = map_to_bytes(sample.depot_map)
    message = Message(bytearray(4_000))
    message.start(map_bytes, LEAST_WORK_LENGTH)
    for _ in range(rng.randrange(1, 5)):
        line = rng.randrange(len(sample.depot_map.lines))
        one = write_point(map_bytes, line, 0, 3, 1, LEAST_WORK_LENGTH, 17) if is_point else write(map_bytes, (line,), 0, 0, LEAST_WORK_LENGTH, 459)
        message.open()
        message.add(rng.randbytes(16) if isinstance(one, Refused) else one.reference)
        message.close()
    number = rng.randrange(4)
    whole = bytes(message.buffer[:message.byte_count])
    return f"number {number}", ReadingOfMessage(map_bytes, whole, bytes_of_part(whole, message.part(number)), is_point)


def wrong_fronts(map_bytes):
    """Fronts that are not the map's, each with what is wrong."""
    count, total = len(map_bytes), map_sum(map_bytes)
    front = front_of(map_bytes)
    numbers = set(range(LARGEST_NUMBER - 4, LARGEST_NUMBER + 1)) | {0, 1, SUM_MODULUS - 1}
    counts = {count - 1, count + 1, count + 128, count + 256, count + 2 ** 16, count + 2 ** 31, total, *numbers} - {count}
    sums = {total - 1, total + 1, count, total + SUM_MODULUS, *(total ^ 1 << bit for bit in range(32)), *numbers} - {total}
    yield from (("count", front_bytes(other, total)) for other in sorted(counts) if other >= 0)
    yield from (("sum", front_bytes(count, other)) for other in sorted(sums) if 0 <= other <= LARGEST_NUMBER)
    yield from (("both", front_bytes(*numbers)) for numbers in ((total, count), (count + 1, total + 1), (0, 0)) if numbers != (count, total))
    for number, with_number in ((count, lambda written: written + write_number(total)), (total, lambda written: write_number(count) + written)):
        shortest = len(write_number(number))
        yield from (("longer form", with_number(longer_form(number, length))) for length in range(shortest + 1, MOST_BYTES_OF_A_NUMBER))
        yield from (("over 32 bits", with_number(write_number(number + 2 ** power))) for power in (32, 33, 34, 35, 64))
    yield from (("early end", front[:length]) for length in range(len(front)))


REASONS = ("count", "sum", "both", "longer form", "over 32 bits", "early end")


def wrong_front(reason):
    """A front with something wrong, and what the reader by itself reads or refuses with 12 to 20 or 22: each has its turn, by all the reasons together."""
    def recipe(rng, turn):
        is_point = turn % 2 == 1
        name, given = given_by_itself(rng, is_point, REFUSED_BEFORE, turn // 2 * len(REASONS) + REASONS.index(reason))
        fronts = [front for found, front in wrong_fronts(given.map_bytes) if found == reason]
        # Behind an early end nothing may stand: it could be read as a number's end.
        behind = b"" if reason == "early end" else other_references(rng)
        return name, read_of(given, is_point, rng.choice(fronts) + behind)
    return recipe


def is_map(map_bytes):
    try:
        read_map(map_bytes)
    except RefusedCall:
        return False
    return True


def map_changed_in_a_byte(rng, map_bytes):
    """Still a map."""
    def attempt():
        place = rng.randrange(len(map_bytes))
        other = with_other_byte(map_bytes, place, rng.choice((map_bytes[place] ^ 1 << rng.randrange(8), rng.randrange(256))))
        return other if other != map_bytes and is_map(other) else None
    return until_found(attempt)


def other_byte(rng, turn):
    """A map that differs in one byte from that of the message."""
    is_point = turn % 2 == 1
    name, given = given_by_itself(rng, is_point, REFUSED_BEFORE, turn // 2)
    other = map_changed_in_a_byte(rng, given.map_bytes)
    return name, replace(read_of(given, is_point, message_with(rng, given.map_bytes, given.reference)), map_bytes=other)


def modulus_added(rng, turn):
    """A sum up to 4 with the modulus added: the remainders are the same, and the numbers are not."""
    is_point, total = turn % 2 == 1, (0, 1, 4)[turn // 2 % 3]
    map_bytes = map_with_sum(FEW_BYTES, total)
    front = front_bytes(FEW_BYTES, total + SUM_MODULUS)
    return f"{total + SUM_MODULUS}", ReadingOfMessage(map_bytes, front + other_references(rng), some_reference(rng, map_bytes, is_point), is_point)


def other_map(rng, turn):
    """Maps of one length, maps with one sum, and maps that have neither in common."""
    is_point, kind = turn % 2 == 1, turn // 2 % 3
    total = rng.choice(SUM_EDGES)
    if kind == 0:
        first, second = (map_with_sum(FEW_BYTES, other) for other in rng.sample(SUM_EDGES, 2))
    elif kind == 1:
        first, second = rng.sample([map_with_sum(FEW_BYTES, total), map_with_sum(80, total)], 2)
    else:
        first, second = RIDGE, rng.choice((map_of_bytes(127), map_with_sum(128, 2 ** 28)))
    reference = some_reference(rng, first, is_point)
    return ("one length", "one sum", "nothing")[kind], ReadingOfMessage(second, message_with(rng, first, reference), reference, is_point)


def agreeing(rng, turn):
    """Two maps that agree in both numbers: a message for the one is read on the other, as the reader by itself reads it there."""
    is_point = turn % 2 == 1
    first, second = rng.sample(agreeing_maps(), 2)
    reference = some_reference(rng, rng.choice((first, second)), is_point)
    return f"{len(first)} bytes", ReadingOfMessage(second, message_with(rng, first, reference), reference, is_point)


def any_wrong_message(rng, map_bytes):
    """For a map that may be refused: its own front, one that is wrong, another map's or none."""
    return rng.choice((front_of(map_bytes), rng.choice([front for _, front in wrong_fronts(map_bytes)]), front_of(RIDGE), b""))


def refused_before(refusal):
    """A map's own refusal stands above 30."""
    def recipe(rng, turn):
        is_point = turn % 2 == 1
        depot_map = ridge_map((0, 1))
        map_bytes = map_damage(depot_map, refusal, turn // 2).apply(depot_map)
        reference = rng.choice((some_reference(rng, RIDGE, is_point), b""))
        return f"{len(map_bytes)} bytes", ReadingOfMessage(map_bytes, any_wrong_message(rng, map_bytes), reference, is_point, rng.choice(WORK_LENGTHS))
    return recipe


def short_work_area(rng, turn):
    """Refusal 1 stands above all others."""
    is_point = turn % 2 == 1
    map_bytes = rng.choice((RIDGE, any_refused_map(rng), b""))
    reference = rng.choice((some_reference(rng, RIDGE, is_point), b""))
    given = ReadingOfMessage(map_bytes, any_wrong_message(rng, map_bytes), reference, is_point, SHORT_WORK_LENGTHS[turn // 2 % len(SHORT_WORK_LENGTHS)])
    return f"{given.work_length} numbers", given


def short_line_buffer(rng, turn):
    """30 stands above 20, and the front's answer does not depend on the line buffer."""
    is_point = turn % 2 == 1
    reference = some_reference(rng, RIDGE, is_point)
    front = front_of(RIDGE) if turn // 2 % 2 else rng.choice([front for _, front in wrong_fronts(RIDGE)])
    return "0 numbers", ReadingOfMessage(RIDGE, front, reference, is_point, line_room=0)


def long_message(rng, turn):
    """A message of over 16,384 bytes, of which only the front is looked at."""
    is_point = turn % 2 == 1
    reference = some_reference(rng, RIDGE, is_point)
    behind = references(rng, [LONGEST_REFERENCE] * 36)
    front = rng.choice([front for reason, front in wrong_fronts(RIDGE) if reason != "early end"]) if turn % 4 in (1, 2) else front_of(RIDGE)
    return f"{len(front + behind)} bytes", ReadingOfMessage(RIDGE, front + behind, reference, is_point)


def large_map(rng, turn):
    """A map of 16,384 bytes, or one that a recipe of large maps has, with the right front or a wrong one. Line buffers are cut to what is ample."""
    is_point = turn % 2 == 1
    if turn // 2 % 2 == 0:
        map_bytes = maps_by_front()[8]
        given = ReadingOfMessage(map_bytes, front_of(map_bytes), some_reference(rng, map_bytes, is_point), is_point)
    else:
        recipes = RECIPES_OF_READERS[is_point]
        names = [name for name in OF_LARGE_MAPS if name in recipes]
        _, made = recipes[names[turn // 4 % len(names)]](rng, turn)
        given = replace(read_of(made, is_point, front_of(made.map_bytes)), line_room=min(made.line_room, AMPLE_LINES))
    if turn // 2 % 5 == 4:
        given = replace(given, message=rng.choice([front for _, front in wrong_fronts(given.map_bytes)]))
    return f"{len(given.map_bytes)} bytes", given


OF_MESSAGE_RECIPES = {
    AS_BY_ITSELF: as_by_itself,
    "small map": on_each_small_map,
    "sent": sent,
    "agreeing maps": agreeing,
    "short line buffer": short_line_buffer,
    LONG_MESSAGE: long_message,
    LARGE_MAP: large_map,
    **{f"refusal 30, {reason}": wrong_front(reason) for reason in REASONS},
    "refusal 30, modulus added": modulus_added,
    "refusal 30, other byte": other_byte,
    "refusal 30, other map": other_map,
    "refusal 1": short_work_area,
    **{f"refusal {number}": refused_before(number) for number in MAP_REFUSALS},
}


def every_small_map(rng):
    """Each small map with its own front, for both readers; and for one of them maps of 64 counts of bytes one after another."""
    for map_bytes in small_maps():
        for is_point in (False, True):
            yield ReadingOfMessage(map_bytes, front_of(map_bytes), some_reference(rng, map_bytes, is_point), is_point)
    for count in range(FEW_BYTES, FEW_BYTES + 64):
        map_bytes, is_point = map_of_bytes(count), count % 3 == 0
        yield ReadingOfMessage(map_bytes, front_of(map_bytes), some_reference(rng, map_bytes, is_point), is_point)


def every_wrong_front(rng):
    """On the ridge each wrong front for both readers, and on maps with sums at the edges for one of them in turn."""
    for map_bytes in (RIDGE, *(map_with_sum(FEW_BYTES, total) for total in (0, 4, SUM_MODULUS - 1)), map_with_sum(128, 2 ** 28)):
        for index, (_, front) in enumerate(wrong_fronts(map_bytes)):
            for is_point in (False, True) if map_bytes == RIDGE else (index % 2 == 1,):
                yield ReadingOfMessage(map_bytes, front, some_reference(rng, map_bytes, is_point), is_point)


def every_changed_map(rng):
    """The ridge's map changed in each of its bytes to several others, with the message for the ridge; where it is still a map, also the other way round."""
    message = front_of(RIDGE)
    for place, byte in enumerate(RIDGE):
        for index, other in enumerate(sorted({byte ^ 1, byte ^ 128, (byte + rng.randrange(2, 255)) % 256} - {byte})):
            changed, is_point = with_other_byte(RIDGE, place, other), (place + index) % 2 == 1
            reference = some_reference(rng, RIDGE, is_point)
            yield ReadingOfMessage(changed, message, reference, is_point)
            if is_map(changed):
                yield ReadingOfMessage(RIDGE, front_of(changed), reference, is_point)
