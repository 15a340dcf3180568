"""Received messages, each asked for a reference (recipes.py says what a recipe is). Most have a fault in their front or one that stops the list, and references
behind it."""

from depot_map import LARGEST_NUMBER, map_to_bytes, write_number
from front import SUM_MODULUS, front_bytes, front_of
from message import LONGEST_MESSAGE, behind_its_length, listed
from message_calls import Received
from message_recipes import asked_number, lengths_filling
from sample_maps import ridge_map

GOOD_LENGTHS = (1, 2, 5, 127, 128, 129, 459)
TOO_LONG = (460, 461, 511, 512, 587, 2 ** 14 + 5, 2 ** 16 + 5, 2 ** 21 + 5, 2 ** 28 + 5, 2 ** 31 + 5, LARGEST_NUMBER)
# Numbers of which a reader with fewer bits would keep a good length. They have 5, 5, 5, 6 and 10 bytes.
OVER_32_BITS = tuple(2 ** power + length for power in (32, 33, 34, 35, 64) for length in (0, 1, 5, 128, 459)) + (LARGEST_NUMBER + 1, 2 ** 35 - 1, 2 ** 70 - 1)
MOST_BYTES_OF_A_NUMBER = 11
# Numbers of a front: of one byte to five, sums at the modulus and past it, and those next to a count of bytes more.
FRONT_NUMBERS = (0, 1, 5, 86, 127, 128, 300, 2 ** 14 - 1, 2 ** 14, 19_000, 2 ** 21 - 1, 2 ** 21, 2 ** 28 - 1, 2 ** 28, 2 ** 31, SUM_MODULUS - 1, SUM_MODULUS,
                 SUM_MODULUS + 1, LARGEST_NUMBER)
# Lengths of references in messages that are cut at every byte, and changed in each byte, and their fronts' numbers; those of the ridge for none.
LENGTHS_OF_DAMAGED = (((3, 1, 5), ()), ((2, 130, 3), (300, SUM_MODULUS)), ((7, 2, 1, 4), (2, 3)))
# The recipe whose messages take much room.
LONG = "long"


def references(rng, lengths):
    return b"".join(behind_its_length(rng.randbytes(length)) for length in lengths)


def any_front(rng):
    """A front that can be read. Whether a map has these numbers does not matter to the list."""
    return front_bytes(rng.choice(FRONT_NUMBERS), rng.choice((rng.choice(FRONT_NUMBERS), rng.randrange(SUM_MODULUS))))


def received_message(rng, lengths):
    return any_front(rng) + references(rng, lengths)


def few_lengths(rng):
    return [rng.choice((1, 2, 3, rng.randrange(1, 20), rng.choice(GOOD_LENGTHS))) for _ in range(rng.randrange(5))]


def any_number(rng, message):
    """A listed one, the first that is not, and others."""
    return asked_number(rng, len(listed(message)[0]))


def asked_for_any(rng, label, message):
    return label, Received(message, any_number(rng, message))


def whole(rng, turn):
    """A message as it was sent. Without references it is a front alone."""
    lengths = few_lengths(rng)
    return asked_for_any(rng, f"{len(lengths)} references", received_message(rng, lengths))


def cut(rng, turn):
    message = received_message(rng, few_lengths(rng) + [rng.choice(GOOD_LENGTHS)])
    length = rng.randrange(len(message))
    return asked_for_any(rng, f"{length} of {len(message)}", message[:length])


def with_other_byte(message, place, byte):
    return message[:place] + bytes([byte]) + message[place + 1:]


def changed_in_a_byte(rng, turn):
    """Every other time it is the first byte of a length."""
    front = any_front(rng)
    message = front + references(rng, few_lengths(rng) + [rng.choice(GOOD_LENGTHS)])
    lengths = [len(front)] + [part.start + part.byte_count for part in listed(message)[0][:-1]]
    place = rng.choice(lengths) if turn % 2 else rng.randrange(len(message))
    return asked_for_any(rng, f"byte {place} of {len(message)}", with_other_byte(message, place, rng.choice((0, 1, 127, 128, 255, rng.randrange(256)))))


def with_faulty_length(rng, label, number, byte_count):
    """References, a faulty length number with so many bytes behind it, and further references. It is asked for the faulty one, or for one next to it."""
    before, behind = few_lengths(rng), few_lengths(rng)
    message = received_message(rng, before) + number + rng.randbytes(byte_count) + references(rng, behind)
    asked = max(0, len(before) + rng.choice((-1, 0, 0, 0, 1)))
    return f"{label} behind {len(before)}", Received(message, rng.choice((asked, asked, any_number(rng, message))))


def longer_form(number, byte_count):
    """The number in so many bytes, more than it needs: groups of zero bits stand at its end."""
    shortest = write_number(number)
    return shortest[:-1] + bytes([shortest[-1] + 128]) + b"\x80" * (byte_count - len(shortest) - 1) + b"\x00"


def length_of_0(rng, turn):
    """Zero, every other time with bytes behind it that are no references."""
    return with_faulty_length(rng, "0", b"\x00", turn % 2 * rng.randrange(4))


def length_in_a_longer_form(rng, turn):
    """Each of the lengths, and 0, in each of the forms that are too long."""
    length = (0, *GOOD_LENGTHS)[turn % 8]
    shortest = len(write_number(length))
    byte_count = shortest + 1 + turn // 8 % (MOST_BYTES_OF_A_NUMBER - shortest)
    return with_faulty_length(rng, f"{length} in {byte_count} bytes", longer_form(length, byte_count), length)


def length_over_459(rng, turn):
    """All of the bytes that the length asks for are there, if they are not too many."""
    length = TOO_LONG[turn % len(TOO_LONG)]
    return with_faulty_length(rng, str(length), write_number(length), length if length < 600 else 5)


def length_over_32_bits(rng, turn):
    length = OVER_32_BITS[turn % len(OVER_32_BITS)]
    return with_faulty_length(rng, str(length), write_number(length), min(length % 2 ** 32, 459))


def length_without_end(rng, turn):
    """The message ends in a length number, also in one that could not become a good one."""
    before = few_lengths(rng)
    number = (b"\x80", b"\x81", b"\xFF", b"\xCB", b"\x80\x80", b"\x85\x80\x80\x80", b"\xFF\xFF\xFF\xFF\xFF", b"\x80" * 12)[turn % 8]
    message = received_message(rng, before) + number
    return f"{number.hex()} behind {len(before)}", Received(message, rng.choice((len(before), max(0, len(before) - 1), any_number(rng, message))))


def bytes_behind(rng, turn):
    """More bytes than were sent: zeros stop the list, and others may not."""
    lengths = few_lengths(rng)
    behind = bytes(rng.randrange(1, 20)) if turn % 2 else rng.randbytes(rng.randrange(1, 20))
    message = received_message(rng, lengths) + behind
    return f"{len(behind)} bytes behind {len(lengths)}", Received(message, len(lengths) + rng.choice((-1, 0, 0, 1)) if lengths else 0)


def any_bytes(rng, turn):
    """Small ones, which are a front and lengths of many references, or any."""
    count = rng.randrange(60)
    message = bytes(rng.randrange(6) for _ in range(count)) if turn % 3 else rng.randbytes(count)
    return asked_for_any(rng, f"{count} bytes", message)


def with_faulty_front(rng, label, front):
    """A front that cannot be read, and references. It is asked for the first of them, or for any."""
    message = front + references(rng, few_lengths(rng) + [rng.choice(GOOD_LENGTHS)])
    return label, Received(message, rng.choice((0, 0, 1, rng.randrange(5), LARGEST_NUMBER)))


def two_numbers(rng, turn, number):
    """A number in place of a front's first, or every other time of its second."""
    other = write_number(rng.choice(FRONT_NUMBERS))
    return other + number if turn % 2 else number + other


def front_in_a_longer_form(rng, turn):
    """Each of the numbers, in one to five bytes more than it needs, as the count and as the sum."""
    number = FRONT_NUMBERS[turn // 2 % len(FRONT_NUMBERS)]
    byte_count = len(write_number(number)) + 1 + turn // 2 % 5
    return with_faulty_front(rng, f"{number} in {byte_count} bytes", two_numbers(rng, turn, longer_form(number, byte_count)))


def front_over_32_bits(rng, turn):
    """Every fifth of the numbers, round and round, so that soon there are some of each power."""
    number = OVER_32_BITS[turn // 2 * 5 % len(OVER_32_BITS)]
    return with_faulty_front(rng, str(number), two_numbers(rng, turn, write_number(number)))


def front_without_end(rng, turn):
    """The message ends in its front, before the sum or is empty."""
    front = any_front(rng)
    length = turn % len(front)
    message = front[:length]
    return f"{length} of {len(front)}", Received(message, rng.choice((0, 0, 1, LARGEST_NUMBER)))


def sum_that_no_map_has(rng, turn):
    """A sum at the modulus or past it, and no byte of a map: such a front can be read."""
    front = front_bytes(rng.choice((0, *FRONT_NUMBERS)), SUM_MODULUS + turn % (LARGEST_NUMBER + 1 - SUM_MODULUS))
    lengths = few_lengths(rng) + [rng.choice(GOOD_LENGTHS)]
    return asked_for_any(rng, f"{len(lengths)} references", front + references(rng, lengths))


# What the reference at byte 16,384 does there, its length, and how far below 16,384 it starts.
AT_THE_END = (("ends there", 130, 132), ("ends one byte behind", 130, 131), ("ends one byte behind", 3, 3), ("has its length before", 7, 1),
              ("has its length before", 459, 2), ("has half of its length before", 459, 1), ("starts there", 5, 0))


def longer_than_a_message(rng, turn):
    """References of over 16,384 bytes together. It is asked for the one at that end; then for the one before it, and for the one behind it."""
    place, length, below = AT_THE_END[turn % len(AT_THE_END)]
    front = any_front(rng)
    before = lengths_filling(rng, LONGEST_MESSAGE - below - len(front))
    message = front + references(rng, [*before, length, rng.choice((1, 200))])
    return f"{place}, {length} bytes", Received(message, len(before) + (0, -1, 1)[turn // len(AT_THE_END) % 3])


def references_of_one_byte(rng, turn):
    """As many as a message can have behind the shortest front, every other time with one more behind them."""
    front = front_bytes(rng.randrange(128), rng.randrange(128))
    count = (LONGEST_MESSAGE - len(front)) // 2
    message = front + references(rng, [1] * (count + (turn + 1) % 2))
    return f"{len(message)} bytes", Received(message, (count - 1, count, 0, LARGEST_NUMBER)[turn % 4])


def as_long_as_a_message(rng, turn):
    """References of exactly 16,384 bytes, or of one byte less, with nothing behind them."""
    front = any_front(rng)
    message = front + references(rng, lengths_filling(rng, LONGEST_MESSAGE - turn % 2 - len(front)))
    return asked_for_any(rng, f"{len(message)} bytes", message)


def long_message(rng, turn):
    """References at the end of what is used, each in its turn, and then one of the others."""
    rest, which = divmod(turn, len(AT_THE_END) + 2)
    if which < len(AT_THE_END):
        return longer_than_a_message(rng, rest * len(AT_THE_END) + which)
    return (references_of_one_byte, as_long_as_a_message)[which - len(AT_THE_END)](rng, rest)


RECEIVED_RECIPES = {
    "whole": whole,
    "cut": cut,
    "changed in a byte": changed_in_a_byte,
    "length of 0": length_of_0,
    "length in a longer form": length_in_a_longer_form,
    "length over 459": length_over_459,
    "length over 32 bits": length_over_32_bits,
    "length without end": length_without_end,
    "bytes behind": bytes_behind,
    "any bytes": any_bytes,
    "front in a longer form": front_in_a_longer_form,
    "front over 32 bits": front_over_32_bits,
    "front without end": front_without_end,
    "sum that no map has": sum_that_no_map_has,
    LONG: long_message,
}


def number_at(message, place):
    """The number of the reference at a place of a message."""
    return sum(part.start + part.byte_count <= place for part in listed(message)[0])


def every_cut(message):
    """The message cut before each of its bytes, and whole, asked for the reference that is cut and for the one before or, of the first, the one behind it."""
    for place in range(len(message) + 1):
        number = number_at(message, place)
        for asked in (number, number - 1 if number > 0 else 1):
            yield Received(message[:place], asked)


def other_bytes(rng, byte, in_length):
    """What a byte is changed to: of a length or of the front the next to it, the other top bit, the ends and any; else any."""
    other = (byte + rng.randrange(1, 256)) % 256
    return sorted({(byte + 1) % 256, (byte - 1) % 256, byte ^ 128, 0, 127, 128, 255, other} - {byte}) if in_length else [other]


def every_changed_byte(rng, message):
    """The message changed in each of its bytes, asked for the reference that is changed and, in its length, for the one behind it; in the front for the first
    two."""
    in_parts = {place for part in listed(message)[0] for place in range(part.start, part.start + part.byte_count)}
    for place, byte in enumerate(message):
        in_length = place not in in_parts
        number = number_at(message, place)
        for other in other_bytes(rng, byte, in_length):
            for asked in (number, number + 1) if in_length else (number,):
                yield Received(with_other_byte(message, place, other), asked)


def every_damage(rng):
    """Some messages with each cut and each byte changed."""
    for lengths, numbers in LENGTHS_OF_DAMAGED:
        message = (front_bytes(*numbers) if numbers else front_of(map_to_bytes(ridge_map()))) + references(rng, lengths)
        yield from every_cut(message)
        yield from every_changed_byte(rng, message)
