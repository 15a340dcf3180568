"""What a C host's calls have of their own: line numbers as bytes, and the most lines that a reading hands back."""

# "A list of over 1,024 lines is refusal 20."
MOST_LINES = 1_024


def line_bytes(lines):
    """Each line number as four bytes, low byte first."""
    return b"".join(line.to_bytes(4, "little") for line in lines)


def lines_of(data):
    """The line numbers in a stretch's bytes. Bytes whose count is no multiple of four hold none, which is refusal 7."""
    if len(data) % 4:
        return ()
    return tuple(int.from_bytes(data[place:place + 4], "little") for place in range(0, len(data), 4))
