"""Histories of calls of messages (recipes.py says what a recipe is). Their names promise no refusal: most of them have several."""

from itertools import product

from damages import map_damage
from depot_map import LARGEST_NUMBER, write_number
from front import front_of
from message import LONGEST_MESSAGE, Message
from message_calls import ADD, ASK, CLOSE, OPEN, START, Call, History, first_buffer
from outcome import Refused
from reader import LEAST_WORK_LENGTH
from reference import LONGEST_REFERENCE
from sample_maps import ridge_map
from summed_maps import maps_by_front, small_maps

PORTIONS = (0, 1, 127, 128, 129, 459, 460)
# The lengths that take one byte more, or are too long, and those next to them.
LENGTH_EDGES = (127, 128, 129, 459, 460)
FIRST_OF_TWO_BYTES = 128
SMALL_ROOMS = 45
# Buffers, and how many bytes of them are left behind the front.
SHORT_ROOMS = (127, 128, 129, 130, 459, 460, 461)
ROOMS_AROUND_TWO_BYTES = tuple(range(124, 138))
ROOMS_FOR_LONG_ONES = (460, 461, 462, 463, 600, 921, 922, 923, 1_400)
ROOMS_FOR_FULL_ONES = (16_384, 16_390, 16_383, 16_385)
# How many bytes are left for the last reference of a full message. A reference takes 128 bytes or 130, and never 129.
LAST_ROOMS = (130, 2, 461, 131, 3, 20, 129)
# Which calls are likely where none is open, and where one is: open, add, close, ask, start.
LIKELY_CALLS = {False: (12, 2, 2, 4, 1), True: (2, 14, 6, 4, 1)}
# Starts one after another that may all be refused.
MOST_STARTS = 8
MAP_REFUSALS = (2, 3, 4, 5, 6, 23, 24)
WORK_LENGTHS = (LEAST_WORK_LENGTH, LEAST_WORK_LENGTH + 1, LEAST_WORK_LENGTH + 4)
SHORT_WORK_LENGTHS = (LEAST_WORK_LENGTH - 1, 0, 12_288)
# The recipes whose histories take much room, and those with the most edges.
LARGE, ON_LARGE_MAP = "large", "on a large map"
TWO_PORTIONS, EACH_FRONT, STARTED_AGAIN, START_REFUSED = "two portions", "each front", "started again", "start refused"


def size_in_message(length):
    """How many bytes a reference takes in a message, its length counted."""
    return len(write_number(length)) + length


SIZES = {length: size_in_message(length) for length in range(1, LONGEST_REFERENCE + 1)}


def lengths_filling(rng, total):
    """Lengths of references that take so many bytes in a message, 0 or at least 2. Most are as long as can be."""
    lengths = []
    while total > 0:
        fitting = [length for length, size in SIZES.items() if size == total or size <= total - 2]
        lengths.append(rng.choice((fitting[-1], fitting[-1], rng.choice(fitting))))
        total -= SIZES[lengths[-1]]
    return lengths


def asked_number(rng, finished):
    """A finished one, the open one or the next, one that is not there, and numbers whose last bits are a finished one's."""
    some = rng.randrange(max(1, finished))
    return rng.choice((some, some, 0, max(0, finished - 1), finished, finished + 1, some + 256, some + 2 ** 16, some + 2 ** 31, LARGEST_NUMBER))


def refused_map(refusal, turn):
    """The ridge's map with one of the faults that give a refusal."""
    depot_map = ridge_map((0, 1))
    return map_damage(depot_map, refusal, turn).apply(depot_map)


def any_refused_map(rng):
    return refused_map(rng.choice(MAP_REFUSALS), rng.randrange(1_000))


class HistoryBuilder:
    """Makes calls on a message of its own, so that the next call can look at how it stands."""

    def __init__(self, rng, room):
        self.rng = rng
        self.message = Message(bytearray(first_buffer(room)))
        self.calls = []
        self.finished = 0
        self.is_started = False

    def make(self, kind, **arguments):
        self.calls.append(Call(kind, **arguments))
        answer = self.calls[-1].made_on(self.message)
        if isinstance(answer, Refused):
            return
        if kind == START:
            self.finished, self.is_started = 0, True
        elif kind == CLOSE:
            self.finished += 1

    def start(self, map_bytes, work_length=LEAST_WORK_LENGTH):
        self.make(START, map_bytes=map_bytes, work_length=work_length)

    def any_start(self):
        """On a small map, or refused for the map or for the work area. Where both are wrong, or the buffer is too short, the work area comes first."""
        good, wrong = self.rng.choice(small_maps()), any_refused_map(self.rng)
        map_bytes = self.rng.choice((good, good, wrong))
        self.start(map_bytes, self.rng.choice((*WORK_LENGTHS, *WORK_LENGTHS, self.rng.choice(SHORT_WORK_LENGTHS))))

    def open(self):
        self.make(OPEN)

    def add(self, *lengths):
        """Portions of any bytes."""
        for length in lengths:
            self.make(ADD, portion=self.rng.randbytes(length))

    def close(self):
        self.make(CLOSE)

    def ask(self, *numbers):
        """For the numbers, or for any."""
        for number in numbers or (asked_number(self.rng, self.finished),):
            self.make(ASK, number=number)

    def write(self, *portions):
        """A whole reference."""
        self.open()
        self.add(*portions)
        self.close()

    def fill(self, total):
        """References that take so many bytes, each in one portion or in two."""
        for length in lengths_filling(self.rng, total):
            first = self.rng.randrange(length + 1)
            self.write(*self.rng.choice(((length,), (length,), (first, length - first))))

    def added(self):
        return self.message.standing().added

    def most(self):
        """The most bytes that the open reference may have, or the next one."""
        rest = self.message.room() - self.message.byte_count
        return max((length for length, size in SIZES.items() if size <= rest), default=0)

    def any_call(self, portion_length):
        kind = self.rng.choices((OPEN, ADD, CLOSE, ASK, START), LIKELY_CALLS[self.message.opened is not None])[0]
        if kind == START or not self.is_started:
            self.any_start()
        elif kind == ADD:
            self.add(portion_length(self))
        elif kind == ASK:
            self.ask()
        else:
            self.make(kind)

    def history(self):
        return History(len(self.message.buffer), tuple(self.calls))


def started(rng, behind, map_bytes=None):
    """A builder whose message is started on the map or on any small one, in a buffer with so many bytes behind the front."""
    chosen = map_bytes or rng.choice(small_maps())
    builder = HistoryBuilder(rng, len(front_of(chosen)) + behind)
    builder.start(chosen)
    return builder


def small_portion(builder):
    """A few bytes, or as many as there is room for, one less or one more."""
    left = max(1, builder.most() - builder.added())
    return builder.rng.choice((0, 1, 1, 1, 2, 3, left - 1, left, left + 1))


def portion_to_an_edge(builder):
    """Up to an edge that there may be room for, to the most that there is, one less or one more, or a few bytes. Sometimes any of the portions."""
    most, added = builder.most(), builder.added()
    edges = [edge for edge in LENGTH_EDGES if edge <= most + 3]
    lengths = [aim - added for aim in (*edges, most - 1, most, most + 1) if aim >= added]
    return builder.rng.choice((*lengths, 0, 1, builder.rng.randrange(1, 40), builder.rng.choice(PORTIONS)))


def random_calls(builder, portion_length, most_calls):
    for _ in range(builder.rng.randrange(most_calls // 2, most_calls + 1)):
        if builder.is_started or len(builder.calls) < MOST_STARTS:
            builder.any_call(portion_length)
    return f"buffer of {len(builder.message.buffer)}", builder.history()


def small_buffer(rng, turn):
    """Every small length of a buffer in its turn. The shortest have no room for a front, or for some."""
    room = turn % SMALL_ROOMS
    return random_calls(HistoryBuilder(rng, room), small_portion, 24 + room)


def short_buffer(rng, turn):
    """A buffer of some 128 or 460 bytes, the front's among them."""
    return random_calls(HistoryBuilder(rng, SHORT_ROOMS[turn % len(SHORT_ROOMS)]), portion_to_an_edge, 16)


def one_or_two_bytes_of_length(rng, turn):
    """A buffer with room for a reference of some 128 bytes."""
    return random_calls(started(rng, ROOMS_AROUND_TWO_BYTES[turn % len(ROOMS_AROUND_TWO_BYTES)]), portion_to_an_edge, 16)


def long_references(rng, turn):
    return random_calls(started(rng, ROOMS_FOR_LONG_ONES[turn % len(ROOMS_FOR_LONG_ONES)]), portion_to_an_edge, 16)


# The last front is that of a large map.
FRONTS_AND_ROOMS = tuple(product(range(2, 8), range(11)))


def each_front_in_each_room(rng, turn):
    """Fronts of 2 to 7 bytes, each in buffers of 0 to 10. What fits behind the front is written, and then the same message is started once more. Every third
    time a start comes before that for which the map is wrong, and one for which the work area is too short as well."""
    length, room = FRONTS_AND_ROOMS[turn % len(FRONTS_AND_ROOMS)]
    builder = HistoryBuilder(rng, room)
    builder.start(maps_by_front()[length])
    if builder.is_started:
        builder.ask(0)
        builder.open()
        builder.add(*rng.choice(((1,), (1, 1), (2, 1))))
        builder.close()
        builder.ask(0, 1)
    if turn % 3 == 0:
        wrong = any_refused_map(rng)
        builder.start(wrong)
        builder.start(wrong, rng.choice(SHORT_WORK_LENGTHS))
    builder.start(maps_by_front()[length])
    return f"{length} in {room}", builder.history()


# Whether one is finished, whether one is open, and whether that has bytes.
STATES = ((False, False, False), (False, True, False), (False, True, True), (True, False, False), (True, True, False), (True, True, True))


def bring_about(builder, state):
    """Brings a started message into a state."""
    finished, opened, added = STATES[state]
    if finished:
        builder.write(1)
    if opened:
        builder.open()
    if added:
        builder.add(1)


# How a message under way is started again.
AGAIN_ON, AGAIN_REFUSED = ("same map", "shorter front", "longer front", "same length of front"), (1, *MAP_REFUSALS, 28)


def started_again(rng, turn):
    """A message in each state is started again on the same map or another. It begins afresh, and behind its front all stands as it did."""
    state, kind = divmod(turn, len(AGAIN_ON))
    first, second = {"same map": (4, 4), "shorter front": (6, 2), "longer front": (3, 7), "same length of front": (6, 6)}[AGAIN_ON[kind]]
    maps = maps_by_front()
    builder = started(rng, rng.randrange(9, 14), maps[first])
    bring_about(builder, state % len(STATES))
    builder.start(small_maps()[0] if AGAIN_ON[kind] == "same length of front" else maps[second], rng.choice(WORK_LENGTHS))
    go_on(builder)
    return f"{AGAIN_ON[kind]}, state {state % len(STATES)}", builder.history()


def start_refused(rng, turn):
    """A message in each state, and a start that is refused: for the work area, for a map's fault of each kind, for a front longer than the buffer. What is
    wrong beside it does not matter. The message goes on."""
    state, kind = divmod(turn, len(AGAIN_REFUSED))
    refusal = AGAIN_REFUSED[kind]
    maps = maps_by_front()
    builder = started(rng, 4, maps[2])
    bring_about(builder, state % len(STATES))
    work_length = rng.choice(WORK_LENGTHS)
    if refusal == 1:
        wrong = rng.choice((maps[2], maps[7], any_refused_map(rng)))
        work_length = rng.choice(SHORT_WORK_LENGTHS)
    else:
        wrong = maps[7] if refusal == 28 else refused_map(refusal, turn // (len(AGAIN_REFUSED) * len(STATES)))
    builder.start(wrong, work_length)
    go_on(builder)
    return f"refused {refusal}, state {state % len(STATES)}", builder.history()


def go_on(builder):
    """Calls that tell in what state a message is."""
    builder.ask(0, 1)
    builder.close()
    builder.open()
    builder.add(0, 1, 1)
    builder.close()
    builder.ask(0, 1, 2)


def on_a_large_map(rng, turn):
    """A map whose count takes three bytes, and a front of eight: in a buffer of eight bytes, of seven and of more."""
    map_bytes = maps_by_front()[8]
    builder = HistoryBuilder(rng, (8, 7, 28)[turn % 3])
    builder.start(map_bytes)
    if builder.is_started:
        go_on(builder)
    builder.start(map_bytes, rng.choice(WORK_LENGTHS))
    return f"buffer of {len(builder.message.buffer)}", builder.history()


def two_portions(rng, turn):
    """Every two of the portions, in a buffer that is just long enough for both, or one byte shorter."""
    pairs = list(product(PORTIONS, repeat=2))
    first, second = pairs[turn % len(pairs)]
    spare = (0, -1)[turn // len(pairs) % 2]
    builder = started(rng, max(0, size_in_message(first + second) + spare))
    builder.open()
    builder.add(first, second)
    builder.ask(0)
    builder.close()
    builder.ask(0, 1)
    return f"{first} and {second}, {spare} to spare", builder.history()


def byte_by_byte(rng, turn):
    """Single bytes across an edge, with or without a finished reference before, in a buffer that ends there or does not."""
    edge = (FIRST_OF_TWO_BYTES, LONGEST_REFERENCE + 1)[turn % 2]
    before = (0, 5)[turn // 2 % 2]
    builder = started(rng, size_in_message(edge) + before + (50, 0, -1, -2)[turn // 4 % 4])
    builder.fill(before)
    builder.open()
    builder.add(edge - rng.randrange(2, 6))
    for _ in range(7):
        builder.add(1, *rng.choice(((), (0,))))
        builder.ask()
    builder.close()
    builder.ask(0, builder.finished)
    return f"{edge} behind {before}", builder.history()


def out_of_order(rng, turn):
    """What does not fit where none is open, where nothing is added yet, and where something is. An addition to none may be too long as well."""
    behind = (30, 0, 700, 1, 2)[turn % 5]
    builder = started(rng, behind)
    too_long = LONGEST_REFERENCE + 1 if behind > LONGEST_REFERENCE else behind + 1
    for _ in range(2):
        builder.close()
        builder.add(rng.randrange(2), rng.choice((too_long, too_long, LONGEST_REFERENCE + 1)))
        builder.ask()
        builder.open()
        builder.open()
        builder.close()
        builder.add(0)
        builder.close()
        builder.add(1, too_long)
        builder.open()
        builder.ask()
        builder.close()
    return f"{behind} behind the front", builder.history()


def full_buffer(rng, turn):
    """A buffer, also one of a front alone, that is full before a reference is opened, or all but for one byte: empty additions are accepted, and no others."""
    total = (0, 2, 3, 20, 128, 130, 140)[turn % 7]
    builder = started(rng, total + turn // 7 % 2)
    builder.fill(total)
    builder.add(0)
    builder.open()
    builder.add(0, 1, 0)
    builder.ask(builder.finished, max(0, builder.finished - 1))
    builder.close()
    builder.add(0, rng.choice((2, *PORTIONS[2:])))
    builder.open()
    return f"{builder.message.byte_count} of {len(builder.message.buffer)}", builder.history()


def every_number(rng, turn):
    """Every finished reference is asked for, and some that are not there: while none is open, while nothing is added and while something is."""
    lengths = [rng.choice((1, 2, rng.randrange(1, 30))) for _ in range(turn % 6)] + [(1, 127, 128)[turn // 6 % 3]]
    builder = started(rng, sum(map(size_in_message, lengths)) + 9)
    for length in lengths:
        builder.write(length)
    for make_next in (builder.open, lambda: builder.add(5), builder.close, builder.open):
        builder.ask(*range(builder.finished + 2), LARGEST_NUMBER)
        builder.ask()
        make_next()
    return f"{len(lengths)} references", builder.history()


def portion_longer_than_a_message(rng, turn):
    """To an open one and to none."""
    builder = HistoryBuilder(rng, (16_400, 40)[turn % 2])
    builder.start(rng.choice(small_maps()))
    portion = LONGEST_MESSAGE + turn // 2 % 2
    builder.write(3)
    if turn % 3 != 2:
        builder.open()
    builder.add(portion, 1)
    builder.ask(0, 1)
    return f"{portion} bytes", builder.history()


def fill_to_the_end(builder, stay_below):
    """A last reference up to one byte less than fits, then with two more, which are too many, and with one more, which fits. Or it stays below."""
    most = builder.most()
    builder.open()
    builder.add(0, most - 1)
    builder.add(most + 1 - builder.added())
    builder.ask()
    if not stay_below:
        builder.add(most - builder.added(), 1)
    builder.add(0)
    builder.close()
    builder.ask(0, builder.finished - 1, builder.finished)
    builder.open()
    builder.add(0, 1, 127)
    builder.ask(builder.finished - 1)
    builder.close()
    builder.ask()


def full_message(rng, turn):
    """A message filled to 16,384 bytes or to one less, in a buffer that is just as long, longer or one byte shorter."""
    room, last = ROOMS_FOR_FULL_ONES[turn % len(ROOMS_FOR_FULL_ONES)], LAST_ROOMS[turn % len(LAST_ROOMS)]
    builder = HistoryBuilder(rng, room)
    builder.start(rng.choice(small_maps()))
    builder.fill(builder.message.room() - builder.message.byte_count - last)
    builder.ask()
    # Of 129 bytes one is left anyway.
    fill_to_the_end(builder, stay_below=turn // len(ROOMS_FOR_FULL_ONES) % 2 == 1 and last != 129)
    return f"{builder.message.byte_count} of {room}", builder.history()


def large(rng, turn):
    """A full message with each of the last rooms, and then a portion that is too long."""
    rest, which = divmod(turn, len(LAST_ROOMS) + 1)
    return portion_longer_than_a_message(rng, rest) if which == len(LAST_ROOMS) else full_message(rng, turn - rest)


MESSAGE_RECIPES = {
    "small buffer": small_buffer,
    "short buffer": short_buffer,
    EACH_FRONT: each_front_in_each_room,
    STARTED_AGAIN: started_again,
    START_REFUSED: start_refused,
    ON_LARGE_MAP: on_a_large_map,
    "one or two bytes of length": one_or_two_bytes_of_length,
    "long references": long_references,
    TWO_PORTIONS: two_portions,
    "byte by byte": byte_by_byte,
    "out of order": out_of_order,
    "full buffer": full_buffer,
    "every number": every_number,
    LARGE: large,
}
