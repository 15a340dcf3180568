"""The binary line example of the white paper (13.1.3), field by field, and put together.

The white paper takes an offset byte down. Paper 02, "Offsets to the nearest", does not, and its byte is worked out beside it. The white paper's distances are
in metres, and here they are in centimetres. Its step of D is 58.6 m.
"""

import base64
import math
import unittest
from pathlib import Path

from depot_map import DepotMap, Line, Node, Steps, map_to_bytes
from fields import coordinate_code, distance_byte, offset_byte, sector
from outcome import StretchRead
from reader import read
from reference import Point, Reference, put_together, take_apart
from writer import write

# Tables 75 to 90, byte by byte.
EXAMPLE_BITS = """
00001011
00000100 01011011 01011011  00100011 01000110 11110101  00011010 01101100 00001001
00000000 10011011 11111110 00111011  00011011 10110100 00000100
11111111 11101011 11111111 10100011  00101011 01011001
01000100
"""
EXAMPLE = bytes(int(bits, 2) for bits in EXAMPLE_BITS.split())
# Tables 79, 84 and 89, in degrees.
BEARINGS = (135, 227, 290)
# Table 74: FRC, FOW, bearing, lowest FRC to next point, and byte D of the distance to next point.
EXAMPLE_POINTS = (Point(285_531, 2_311_925, 3, 2, 12, 3, 9),
                  Point(155, -453, 3, 3, 20, 5, 4),
                  Point(-21, -93, 5, 3, 25))


def drawn_at(bearing):
    """The steps to the point 20 m along a line of that bearing, to the nearest decimetre."""
    return Steps(round(200 * math.sin(math.radians(bearing))), round(200 * math.cos(math.radians(bearing))))


class BinaryExample(unittest.TestCase):
    def test_fields_one_by_one(self):
        self.assertEqual(coordinate_code(612_683), int.from_bytes(EXAMPLE[1:4], "big"))
        self.assertEqual([sector(drawn_at(bearing)) for bearing in BEARINGS], [0b01100, 0b10100, 0b11001])
        # 561 m and 274 m: 561 / 58.6 is 9.6 and 274 / 58.6 is 4.7.
        self.assertEqual([distance_byte(length) for length in (56_100, 27_400)], [EXAMPLE[9], EXAMPLE[16]])

    def test_offset_byte(self):
        # Table 73: 150 m of 561 m. 256 x 150 / 561 is 68.45, which the white paper takes down to 68. So 13.1.5 reads it as "26,76%", 68.5 256ths, the
        # middle of a bucket from 68 to 69. By paper 02 it is 68 as well, being the nearest. The negative offset is 0, which has no byte in either.
        self.assertEqual(EXAMPLE[23:], bytes([256 * 15_000 // 56_100]))
        self.assertEqual(offset_byte(15_000, 56_100), 68)
        self.assertEqual(EXAMPLE[22] & 0b0110_0000, 0b0100_0000)

    def test_steps_drawn_at_the_bearings(self):
        # 200 x sin and cos: 141.4 and -141.4; -146.3 and -136.4; -187.9 and 68.4.
        self.assertEqual([drawn_at(bearing) for bearing in BEARINGS], [(141, -141), (-146, -136), (-188, 68)])

    def test_latitude_of_the_example(self):
        # Equation 1 gives 2,311,924.13 + 0.5, cut to 2,311,924. Table 77 prints one more (F5, not F4).
        # The same example's Base64 in the XML listing (13.1.4) has the value of the equation.
        in_xml_listing = base64.b64decode("CgRbWyNG9BpsCQCb/jsbtAT/6/+jK1kC")[4:7]
        self.assertEqual(coordinate_code(4_960_851), int.from_bytes(in_xml_listing, "big"))
        self.assertEqual(coordinate_code(4_960_851), int.from_bytes(EXAMPLE[4:7], "big") - 1)

    def test_base64_below_the_tables(self):
        # It has the tables' bytes but for the last two, where Tables 89 and 90 have 59 and 44.
        printed = base64.b64decode("CwRbWyNG9RpsCQCb/jsbtAT/6/+jK1IE")
        self.assertEqual(printed[:-2], EXAMPLE[:-2])
        self.assertEqual((printed[-2:].hex(), EXAMPLE[-2:].hex()), ("5204", "5944"))

    def test_file_of_the_program(self):
        # crates/test_white_paper takes the same bytes apart.
        crate = Path(__file__).parent.parent / "crates" / "test_white_paper"
        self.assertEqual((crate / "data" / "example.bin").read_bytes(), EXAMPLE)

    def test_taken_apart(self):
        self.assertEqual(take_apart(EXAMPLE), Reference(EXAMPLE_POINTS, positive_byte=68))

    def test_put_together(self):
        self.assertEqual(put_together(Reference(EXAMPLE_POINTS, positive_byte=68)), EXAMPLE)

    def test_read_on_a_map_of_the_examples_legs(self):
        # Nodes 1, 10 and 15 with one line for each leg. Line 1 has FRC 5, the lowest of its leg, so that the
        # second point's P is 2B here. The latitude's code is that of Equation 1.
        nodes = (Node(612_683, 4_960_851), Node(612_838, 4_960_398), Node(612_817, 4_960_305))
        out, out_again, back = map(drawn_at, BEARINGS)
        lines = (Line(0, 1, 56_100, 3, 2, out, drawn_at(0)), Line(1, 2, 27_400, 5, 3, out_again, back))
        reference = bytearray(EXAMPLE)
        reference[6], reference[14] = 0xF4, 0x2B
        # Byte 68 on 56,100: 67.5 x 56,100 / 256 is 14,791.99 and 68.5 x 56,100 / 256 is 15,011.1. The white paper's 150 m are still among them. The middle of
        # its bucket is the end of this span: what lies above it gives 69 now.
        self.assertEqual(read(map_to_bytes(DepotMap(nodes, lines)), bytes(reference), 14_336, 2),
                         StretchRead((0, 1), (14_792, 15_011), (0, 0)))

    def test_written_on_a_map_of_the_first_leg(self):
        # The leg's bytes and the offset's are the example's, but for the latitude's code. 15,012 is just past the span: 256 x 15,012 / 56,100 is 68.504, which
        # the white paper would take down to 68 too.
        nodes = (Node(612_683, 4_960_851), Node(612_838, 4_960_398))
        line = Line(0, 1, 56_100, 3, 2, drawn_at(BEARINGS[0]), drawn_at(BEARINGS[2]))
        map_bytes = map_to_bytes(DepotMap(nodes, (line,)))
        for offset, byte in ((15_000, 68), (15_011, 68), (15_012, 69)):
            written = write(map_bytes, [0], offset, 0, 14_336, 17).reference
            self.assertEqual((written[:6] + written[7:14], written[16]), (EXAMPLE[:6] + EXAMPLE[7:14], byte))


if __name__ == "__main__":
    unittest.main()
