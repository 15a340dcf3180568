"""What the printing program prints for map.bin and ref.bin in a folder ("The tie at the ridge")."""

from outcome import outcome_text
from reader import LEAST_WORK_LENGTH, read

LINE_ROOM = 1_024


def contents(path):
    """A missing file counts as empty."""
    return path.read_bytes() if path.exists() else b""


def shown(folder):
    map_bytes, reference = contents(folder / "map.bin"), contents(folder / "ref.bin")
    return outcome_text(read(map_bytes, reference, LEAST_WORK_LENGTH, LINE_ROOM))
