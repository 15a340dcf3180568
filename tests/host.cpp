// The header in C++: a stretch of the ridge is written and read back, and so is a point on it; both go into a message and are read out of it. Offsets and spans
// are in centimetres.
#include "openlr.h"

static_assert(OPENLR_UNITS_PER_METRE == 100, "lengths and offsets are in centimetres");

#include <algorithm>
#include <cstdio>
#include <fstream>
#include <iterator>
#include <string>
#include <vector>

using bytes_t = std::vector<std::uint8_t>;

// Whether reference n of a message stands from that byte on.
static bool is_reference(const bytes_t &message, std::uint32_t n, std::uint32_t from, const bytes_t &reference) {
    const openlr_part part = openlr_message_reference(message.data(), message.size(), n);
    return part.from == from && part.byte_count == reference.size() && std::equal(reference.begin(), reference.end(), message.begin() + from);
}

// A stretch and a point out of a message, by the numbers that the two readers answer: the refusals, and how many lines.
static bool reads(const bytes_t &map, const bytes_t &message, const bytes_t &stretch, const bytes_t &point, std::uint32_t refusal) {
    bytes_t lines(4 * OPENLR_MOST_LINES);
    const openlr_reading a = openlr_read_of_message(map.data(), map.size(), message.data(), message.size(), stretch.data(), stretch.size(), lines.data(),
                                                    lines.size());
    const openlr_point b = openlr_read_point_of_message(map.data(), map.size(), message.data(), message.size(), point.data(), point.size(), lines.data(),
                                                        lines.size());
    return a.refusal == refusal && b.refusal == refusal && a.line_count == (refusal ? 0 : 2) && b.lines == (refusal ? 0 : 1);
}

// Two references in one message, each behind a length of one byte, and both behind the ridge's front, which has 6 bytes. Then the front has another last byte.
static bool is_good_message(const bytes_t &map, const bytes_t &first, const bytes_t &second) {
    bytes_t buffer(OPENLR_LONGEST_MESSAGE);
    openlr_message message = openlr_message_start(map.data(), map.size(), buffer.data(), buffer.size());
    if (message.refusal != 0 || message.byte_count != 6 || message.byte_count > OPENLR_LONGEST_FRONT) return false;
    for (const bytes_t &reference : {first, second}) {
        message = openlr_message_open(message);
        message = openlr_message_add(message, buffer.data(), buffer.size(), reference.data(), reference.size());
        message = openlr_message_close(message);
        if (message.refusal) std::puts(openlr_refusal_sentence(message.refusal));
    }
    const std::uint32_t count = 6 + 1 + first.size() + 1 + second.size();
    buffer.resize(message.byte_count);
    bytes_t other = buffer;
    other[5] ^= 1;
    return message.refusal == 0 && message.byte_count == count && message.open == 0 && message.added == 0 && is_reference(buffer, 0, 7, first)
           && is_reference(buffer, 1, 8 + first.size(), second) && is_reference(buffer, 2, count, {})
           && openlr_message_close(message).refusal == OPENLR_MESSAGE_ORDER && reads(map, buffer, first, second, 0)
           && reads(map, other, first, second, OPENLR_OTHER_MAP);
}

int main() {
    std::ifstream file("examples/ridge/map.bin", std::ios::binary);
    const std::vector<char> read{std::istreambuf_iterator<char>(file), {}};
    const bytes_t map(read.begin(), read.end()), stretch{0, 0, 0, 0, 1, 0, 0, 0};
    bytes_t bytes(OPENLR_LONGEST_REFERENCE), point_bytes(OPENLR_LONGEST_POINT), lines(4 * OPENLR_MOST_LINES);
    const openlr_written written =
        openlr_write(map.data(), map.size(), stretch.data(), stretch.size(), 5000, 0, OPENLR_MOST_TESTS, bytes.data(), bytes.size());
    bytes.resize(written.byte_count);
    const openlr_reading reading = openlr_read(map.data(), map.size(), bytes.data(), bytes.size(), lines.data(), lines.size());
    const bool good = written.refusal == 0 && written.tests == 3 && written.excess == 0 && reading.refusal == 0 && reading.line_count == 2
                      && reading.pos_least == 4981 && reading.pos_greatest == 5019;
    const openlr_point_written marked =
        openlr_write_point(map.data(), map.size(), 2, 1200, OPENLR_ORIENTATION_BOTH, OPENLR_SIDE_LEFT, point_bytes.data(), point_bytes.size());
    point_bytes.resize(marked.bytes);
    const openlr_point point = openlr_read_point(map.data(), map.size(), point_bytes.data(), point_bytes.size(), lines.data(), 4);
    const bool good_point = marked.refusal == 0 && point.refusal == 0 && point.lines == 1 && lines[0] == 2 && point.least == 1182 && point.greatest == 1201
                            && point.orientation == OPENLR_ORIENTATION_BOTH && point.side == OPENLR_SIDE_LEFT;
    const bool all_good = good && good_point && is_good_message(map, bytes, point_bytes);
    std::puts(all_good ? "openlr.h: as a C++ program expects" : "openlr.h: not as a C++ program expects");
    for (const std::uint32_t refusal : {written.refusal, reading.refusal, marked.refusal, point.refusal})
        if (refusal) std::puts(openlr_refusal_sentence(refusal));
    return all_good ? 0 : 1;
}
