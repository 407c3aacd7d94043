/*
 * Calls each export of libospf.a from C, through include/ospf.h: each walk and each block on an example input, its
 * whole strip, the bytes past it, and the strip read by ospf_step beside the proved step; metrics that are unreachable;
 * blocks that are absent; the comparisons; the LS checksum; rows of the book, each field both ways; and the refusals. The
 * last line is "c: N checks passed"; the exit status is 0 only where all passed.
 */
#include <stdio.h>
#include <string.h>

#include "ospf.h"

static int passed, failed;

static void check(int ok, const char *what)
{
    if (ok) {
        passed++;
    } else {
        failed++;
        printf("c: FAILED: %s\n", what);
    }
}

/* Entries as the strip has them, for places below 256. */
#define PLACES(start, end) 0, 0, 0, start, 0, 0, 0, end
#define OPEN(id, start, end, count) OSPF_KIND_OPEN, id, PLACES(start, end), 0, 0, 0, count
#define CLOSE OSPF_KIND_CLOSE
#define U8(id, start, end, v) OSPF_KIND_U8, id, PLACES(start, end), v
#define U16(id, start, end, a, b) OSPF_KIND_U16, id, PLACES(start, end), a, b
#define U32(id, start, end, a, b, c, d) OSPF_KIND_U32, id, PLACES(start, end), a, b, c, d
#define IPV4(id, start, end, a, b, c, d) OSPF_KIND_IPV4, id, PLACES(start, end), a, b, c, d
#define BYTES(id, start, end) OSPF_KIND_BYTES, id, PLACES(start, end)
#define UNREACHABLE(id, start, end) OSPF_KIND_UNREACHABLE, id, PLACES(start, end)
#define U64(id, start, end, a, b, c, d, e, f, g, h) OSPF_KIND_U64, id, PLACES(start, end), a, b, c, d, e, f, g, h

/* The fields of a version 2 header that is at a place: LS type, and the last byte of its length. */
#define HEADER_V2(at, type, length)                                                    \
    U16(0, at, at + 2, 0, 1), U8(1, at + 2, at + 3, 2), U8(2, at + 3, at + 4, type),   \
        IPV4(3, at + 4, at + 8, 10, 0, 0, 1), IPV4(4, at + 8, at + 12, 10, 0, 0, 2),   \
        U32(5, at + 12, at + 16, 0x80, 0, 0, 1), U16(6, at + 16, at + 18, 0x12, 0x34), \
        U16(7, at + 18, at + 20, 0, length)

/* A refusal as an export answers it, with the length in the low bits. */
static uint64_t refused(uint8_t number, uint32_t length) { return (uint64_t)number << 32 | length; }

/* At every place the inline step says what the proved one does. */
static int same_steps(const uint8_t *strip, size_t length)
{
    for (size_t place = 0; place <= length + 1; place++) {
        ospf_entry entry = ospf_step(strip, length, place);
        uint32_t bytes = entry.kind == 0 ? 0 : (uint32_t)(entry.next - place);
        if (ospf_strip_step(strip, length, place) != refused(entry.refused, bytes)) return 0;
    }
    return 1;
}

/* The sum of the values that are numbers, so that a strip is read to its end. */
static uint64_t sum_of_values(const uint8_t *strip, size_t length)
{
    uint64_t sum = 0;
    ospf_entry entry;
    for (size_t place = 0; place < length; place = entry.next) {
        entry = ospf_step(strip, length, place);
        switch (entry.kind) {
        case OSPF_KIND_U8: sum += ospf_u8(entry); break;
        case OSPF_KIND_U16: sum += ospf_u16(entry); break;
        case OSPF_KIND_U32:
        case OSPF_KIND_IPV4: sum += ospf_u32(entry); break;
        case OSPF_KIND_U64: sum += ospf_u64(entry); break;
        case 0: return UINT64_MAX;
        default: break;
        }
    }
    return sum;
}

/* The strip is the expected one, and the bytes past it are as they were. */
static void check_strip(const char *what, uint64_t answer, const uint8_t *strip, size_t room, const uint8_t *expected,
                        size_t length)
{
    check(ospf_number(answer) == 0, what);
    check(ospf_length(answer) == length && answer == length, what);
    check(length <= room && memcmp(strip, expected, length) == 0, what);
    check(same_steps(strip, length), what);
    for (size_t i = length; i < room; i++) {
        if (strip[i] != 0xA5) {
            check(0, what);
            return;
        }
    }
    check(1, what);
}

/* Two version 2 headers' worth of data but one byte: a header, and 19 bytes that are none. */
static void headers(void)
{
    const uint8_t data[39] = {0, 1, 2, 1, 10, 0, 0, 1, 10, 0, 0, 2, 0x80, 0, 0, 1, 0x12, 0x34, 0, 24};
    const uint8_t expected[] = {OPEN(114, 8, 28, 1), OPEN(112, 8, 28, 8), HEADER_V2(8, 1, 24), CLOSE, CLOSE,
                                BYTES(25, 28, 47)};
    uint8_t strip[200];
    memset(strip, 0xA5, sizeof strip);
    uint64_t answer = ospf_lsa_headers(2, data, sizeof data, 8, strip, sizeof strip);
    check_strip("header list", answer, strip, sizeof strip, expected, sizeof expected);
    /* The values of the header: age, options, type, both ids, sequence number, checksum and length. */
    uint64_t values = 1 + 2 + 1 + 0x0A000001u + 0x0A000002u + 0x80000001u + 0x1234u + 24;
    check(sum_of_values(strip, ospf_length(answer)) == values, "the header's values");
    ospf_entry array = ospf_step(strip, sizeof expected, 0);
    check(ospf_count(array) == 1, "the list's count");
    check(ospf_count(ospf_step(strip, sizeof expected, array.next)) == 8, "the header's count");
    ospf_entry tail = ospf_step(strip, sizeof expected, sizeof expected - 1 - OSPF_BODY_BYTES);
    check(tail.kind == OSPF_KIND_BYTES && tail.next == sizeof expected, "the tail's entry");
    check(ospf_id(tail) == OSPF_V2_UNPARSED && ospf_start(tail) == 28 && ospf_end(tail) == 47, "the tail's range");
    check(strcmp(ospf_name(2, ospf_id(tail)), "unparsed") == 0, "the tail's name");
}

/* A version 3 update of one LSA, a network LSA with one router. */
static void update(void)
{
    const uint8_t data[32] = {0,    0, 0, 1, 0,    1,    0x20, 2,  0, 0, 0, 9, 10, 0, 0, 2,
                              0x80, 0, 0, 1, 0x12, 0x34, 0,    28, 0, 0, 0, 3, 10, 0, 0, 7};
    const uint8_t expected[] = {OPEN(114, 4, 32, 1),
                                OPEN(113, 4, 32, 9),
                                U16(0, 4, 6, 0, 1),
                                U16(1, 6, 8, 0x20, 2),
                                U32(2, 8, 12, 0, 0, 0, 9),
                                IPV4(3, 12, 16, 10, 0, 0, 2),
                                U32(4, 16, 20, 0x80, 0, 0, 1),
                                U16(5, 20, 22, 0x12, 0x34),
                                U16(6, 22, 24, 0, 28),
                                U32(14, 25, 28, 0, 0, 0, 3),
                                OPEN(16, 28, 32, 1),
                                IPV4(98, 28, 32, 10, 0, 0, 7),
                                CLOSE,
                                CLOSE,
                                CLOSE};
    uint8_t strip[300];
    memset(strip, 0xA5, sizeof strip);
    uint64_t answer = ospf_lsu_lsas(3, data, sizeof data, 1, 0, strip, sizeof strip);
    check_strip("update", answer, strip, sizeof strip, expected, sizeof expected);
}

/* A version 2 LSA of a type without a layout: its body is one range. */
static void single(void)
{
    const uint8_t data[22] = {0, 1, 2, 12, 10, 0, 0, 1, 10, 0, 0, 2, 0x80, 0, 0, 1, 0x12, 0x34, 0, 22, 0xBE, 0xEF};
    const uint8_t expected[] = {HEADER_V2(0, 12, 22), BYTES(23, 20, 22)};
    uint8_t strip[sizeof expected];
    memset(strip, 0xA5, sizeof strip);
    uint64_t answer = ospf_lsa(2, data, sizeof data, 0, strip, sizeof strip);
    check_strip("single LSA", answer, strip, sizeof strip, expected, sizeof expected);
}

/* A version 2 summary LSA whose metric is unreachable, with two TOS metrics: a cost, and unreachable. */
static void unreachable_metrics(void)
{
    const uint8_t data[36] = {0,    1,    2,    3,    10,   0,    0, 1,  10,  0,    0,    2,
                              0x80, 0,    0,    1,    0x12, 0x34, 0, 36, 255, 255,  0,    0,
                              0,    0xFF, 0xFF, 0xFF, 8,    0,    0, 10, 16,  0xFF, 0xFF, 0xFF};
    const uint8_t expected[] = {HEADER_V2(0, 3, 36),
                                IPV4(17, 20, 24, 255, 255, 0, 0),
                                UNREACHABLE(19, 25, 28),
                                OPEN(20, 28, 36, 2),
                                OPEN(97, 28, 32, 2),
                                U8(81, 28, 29, 8),
                                U32(82, 29, 32, 0, 0, 0, 10),
                                CLOSE,
                                OPEN(97, 32, 36, 2),
                                U8(81, 32, 33, 16),
                                UNREACHABLE(82, 33, 36),
                                CLOSE,
                                CLOSE};
    uint8_t strip[sizeof expected];
    memset(strip, 0xA5, sizeof strip);
    check(ospf_lsa(2, data, sizeof data, 0, strip, sizeof expected - 1) == refused(OSPF_REFUSED_ROOM, sizeof expected),
          "unreachable metrics, a byte short");
    uint64_t answer = ospf_lsa(2, data, sizeof data, 0, strip, sizeof strip);
    check_strip("unreachable metrics", answer, strip, sizeof strip, expected, sizeof expected);
    int unreachable = 0, costs = 0;
    ospf_entry entry = ospf_begin();
    while ((entry = ospf_next(strip, sizeof strip, entry)).kind != 0) {
        if (entry.kind == OSPF_KIND_CLOSE || strcmp(ospf_name(2, ospf_id(entry)), "metric") != 0) continue;
        if (entry.kind == OSPF_KIND_UNREACHABLE && ospf_end(entry) - ospf_start(entry) == 3) unreachable++;
        if (entry.kind == OSPF_KIND_U32 && ospf_u32(entry) == 10) costs++;
    }
    check(entry.refused == 0 && unreachable == 2 && costs == 1, "the metrics read");
}

/* A block of this many bytes is taken, and its strip is the expected one. */
static void check_block(const char *what, uint64_t answer, uint32_t block, const uint8_t *strip, size_t room,
                        const uint8_t *expected, size_t length)
{
    check(ospf_block(answer) == block, what);
    check_strip(what, answer - ((uint64_t)block << 40), strip, room, expected, length);
}

/* An LLS block of three words with a TLV of extended options, at 40 of its packet, and two bytes more. */
static void lls(void)
{
    const uint8_t data[14] = {0xFF, 0xF6, 0, 3, 0, 1, 0, 4, 0, 0, 0, 1, 0xBE, 0xEF};
    const uint8_t expected[49] = {OPEN(136, 40, 52, 3), U16(128, 40, 42, 0xFF, 0xF6), U16(129, 42, 44, 0, 3),
                                  BYTES(130, 44, 52), CLOSE};
    uint8_t strip[60];
    memset(strip, 0xA5, sizeof strip);
    uint64_t answer = ospf_lls(data, sizeof data, 40, strip, sizeof strip);
    check_block("LLS block", answer, 12, strip, sizeof strip, expected, sizeof expected);
    check(ospf_lls(data, 12, 40, strip, 49) == answer, "LLS block, data and buffer full");
    check(sum_of_values(strip, ospf_length(answer)) == 0xFFF6u + 3, "the LLS block's values");
    check(strcmp(ospf_name(2, OSPF_ID_LLS), "lls") == 0 && strcmp(ospf_name(3, OSPF_ID_LLS), "lls") == 0, "its name");
}

/* A trailer with a sequence number above 32 bits and a digest of two bytes, and one byte more. */
static void auth_trailer(void)
{
    const uint8_t data[19] = {0, 1, 0, 18, 0xFF, 0xFF, 0, 100, 0x80, 0, 0, 1, 0, 0, 0, 2, 0xDE, 0xAD, 0xBE};
    const uint8_t expected[79] = {OPEN(152, 0, 18, 5),
                                  U16(144, 0, 2, 0, 1),
                                  U16(145, 2, 4, 0, 18),
                                  U16(146, 6, 8, 0, 100),
                                  U64(147, 8, 16, 0x80, 0, 0, 1, 0, 0, 0, 2),
                                  BYTES(148, 16, 18),
                                  CLOSE};
    uint8_t strip[90];
    memset(strip, 0xA5, sizeof strip);
    uint64_t answer = ospf_auth_trailer(data, sizeof data, 0, strip, sizeof strip);
    check_block("trailer", answer, 18, strip, sizeof strip, expected, sizeof expected);
    check(ospf_auth_trailer(data, 18, 0, strip, 79) == answer, "trailer, data and buffer full");
    uint64_t values = 1 + 18 + 100 + 0x8000000100000002u;
    check(sum_of_values(strip, ospf_length(answer)) == values, "the trailer's values");
    check(strcmp(ospf_name(3, OSPF_ID_CRYPTO_SEQUENCE_NUMBER), "crypto_sequence_number") == 0, "the number's name");
}

/* Blocks that are absent, and refused ones: the lent buffer is as it was. */
static void no_blocks(void)
{
    static uint8_t longest[65536];
    const uint8_t words[8] = {0, 0, 0, 2}, trailer[16] = {0, 1, 0, 16};
    uint8_t data[16] = {0}, strip[79], before[79];
    memset(before, 0xA5, sizeof before);
    memcpy(strip, before, sizeof before);
    check(ospf_lls(words, 3, 0, strip, 79) == 0, "LLS block, 3 bytes");
    check(ospf_lls(words, 7, 0, strip, 79) == 0, "LLS block, a byte short");
    check(ospf_lls(words, 7, 0, strip, 0) == 0, "LLS block, absent without room");
    check(ospf_lls(data, 16, 0, strip, 79) == 0, "LLS block, no word");
    check(ospf_auth_trailer(trailer, 15, 0, strip, 79) == 0, "trailer, a byte short");
    data[3] = 15;
    check(ospf_auth_trailer(data, 16, 0, strip, 79) == 0, "trailer, a length of 15");
    data[3] = 17;
    check(ospf_auth_trailer(data, 16, 4294901760, strip, 0) == 0, "trailer, a length of 17");
    longest[3] = 16;
    uint64_t (*const blocks[2])(const uint8_t *, size_t, uint64_t, uint8_t *, size_t) = {ospf_lls, ospf_auth_trailer};
    for (int i = 0; i < 2; i++) {
        const uint32_t needed = i == 0 ? 49 : 79;
        check(blocks[i](longest, 65536, 4294901761, strip, 0) == refused(OSPF_REFUSED_TOO_LONG, 0), "block, refusal 2");
        check(blocks[i](longest, 64, 4294901761, strip, 0) == refused(OSPF_REFUSED_OFFSET, 0), "block, refusal 3");
        check(blocks[i](longest, 0, 4294901761, strip, 0) == refused(OSPF_REFUSED_OFFSET, 0), "no block, refusal 3");
        check(blocks[i](longest, 64, 0, strip, needed - 1) == refused(OSPF_REFUSED_ROOM, needed), "block, refusal 5");
    }
    check(memcmp(strip, before, sizeof before) == 0, "absent and refused blocks write nothing");
}

/* Two headers that differ in the sequence number, then in nothing; each refusal of the comparison. */
static void newness(void)
{
    uint8_t first[20] = {0, 1, 2, 1, 10, 0, 0, 1, 10, 0, 0, 2, 0x80, 0, 0, 2, 0x12, 0x34, 0, 24};
    uint8_t second[21] = {0, 1, 2, 1, 10, 0, 0, 1, 10, 0, 0, 2, 0x80, 0, 0, 1, 0x12, 0x34, 0, 24, 0xFF};
    for (uint8_t version = 2; version <= 3; version++) {
        check(ospf_newness(version, first, 20, second, 21) == OSPF_NEWNESS_FIRST, "the first is newer");
        check(ospf_newness(version, second, 21, first, 20) == OSPF_NEWNESS_SECOND, "the second is newer");
        check(ospf_newness(version, first, 20, first, 20) == OSPF_NEWNESS_SAME, "neither is newer");
    }
    first[0] = 0x0E, first[1] = 0x10;
    check(ospf_newness(2, first, 20, first, 20) == OSPF_NEWNESS_SAME, "an age of 3,600");
    check(ospf_compared(ospf_newness(2, first, 20, second, 21)) == OSPF_NEWNESS_FIRST, "an age of 3,600, first");
    first[1] = 0x11;
    check(ospf_newness(2, first, 20, second, 21) == refused(OSPF_REFUSED_AGE, 0), "an age of 3,601, first");
    check(ospf_newness(2, second, 21, first, 20) == refused(OSPF_REFUSED_AGE, 0), "an age of 3,601, second");
    check(ospf_newness(2, first, 19, second, 21) == refused(OSPF_REFUSED_TOO_SHORT, 0), "19 bytes, first");
    check(ospf_newness(2, second, 21, first, 19) == refused(OSPF_REFUSED_TOO_SHORT, 0), "19 bytes, second");
    check(ospf_newness(1, first, 19, first, 19) == refused(OSPF_REFUSED_VERSION, 0), "newness in version 1");
}

/* Prefixes by their octets as packets have them, with zeros left out or put in, and with junk past their length; each refusal of the
   comparison. */
static void prefixes(void)
{
    const uint8_t first[8] = {0x20, 1, 0x0D, 0xB8, 0x50, 0, 0, 0}, second[5] = {0x20, 1, 0x0D, 0xB8, 0x51};
    const uint8_t other[4] = {0x20, 1, 0x0D, 0xB9};
    const uint8_t last[16] = {0x20, 1, 0x0D, 0xB8, 0, 0, 0, 0, 0, 0, 0, 0, 0, 0, 0, 1};
    const uint8_t longer[17] = {0x20, 1, 0x0D, 0xB8, 0x50, 0, 0, 0, 0, 0, 0, 0, 0, 0, 0, 0, 0xFF};
    check(ospf_prefix_compare(128, first, 8, 128, first, 5) == OSPF_PREFIX_SAME, "zeros left out");
    check(ospf_prefix_compare(128, first, 8, 128, longer, 17) == OSPF_PREFIX_SAME, "a byte past 16");
    check(ospf_prefix_compare(39, first, 8, 39, second, 5) == OSPF_PREFIX_SAME, "a bit past the length");
    check(ospf_prefix_compare(40, first, 8, 40, second, 5) == OSPF_PREFIX_DIFFERENT, "the last bit");
    check(ospf_prefix_compare(39, first, 8, 39, longer, 17) == OSPF_PREFIX_SAME, "all octets");
    check(ospf_prefix_compare(8, first, 8, 8, second, 5) == OSPF_PREFIX_SAME, "the first byte");
    check(ospf_prefix_compare(32, second, 5, 32, other, 4) == OSPF_PREFIX_DIFFERENT, "the last bit of a word");
    check(ospf_prefix_compare(31, second, 5, 31, other, 4) == OSPF_PREFIX_SAME, "the bit past 31");
    check(ospf_prefix_compare(36, first, 8, 37, first, 8) == OSPF_PREFIX_DIFFERENT, "lengths that differ");
    check(ospf_compared(ospf_prefix_compare(0, first, 0, 0, second, 5)) == OSPF_PREFIX_SAME, "no bits");
    check(ospf_prefix_compare(128, last, 16, 128, last, 15) == OSPF_PREFIX_DIFFERENT, "the last bit of 128");
    check(ospf_prefix_compare(127, last, 16, 127, last, 15) == OSPF_PREFIX_SAME, "the bit past 127");
    check(ospf_prefix_compare(129, first, 8, 36, first, 8) == refused(OSPF_REFUSED_PREFIX_LENGTH, 0), "129, first");
    check(ospf_prefix_compare(36, first, 8, 129, first, 8) == refused(OSPF_REFUSED_PREFIX_LENGTH, 0), "129, second");
}

/* The first LSA of examples/update-v2.bin, as a router made it: checked, damaged, made again; and the lengths. */
static void checksums(void)
{
    const uint8_t published[48] = {0x00, 0x02, 0x02, 0x01, 0xC0, 0xA8, 0xAA, 0x03, 0xC0, 0xA8, 0xAA, 0x03, 0x80, 0x00, 0x00, 0x01,
                                   0x3A, 0x9C, 0x00, 0x30, 0x02, 0x00, 0x00, 0x02, 0xC0, 0xA8, 0xAA, 0x00, 0xFF, 0xFF, 0xFF, 0x00,
                                   0x03, 0x00, 0x00, 0x0A, 0xC0, 0xA8, 0xAA, 0x00, 0xFF, 0xFF, 0xFF, 0x00, 0x03, 0x00, 0x00, 0x0A};
    static uint8_t longest[65536];
    uint8_t lsa[48];
    memcpy(lsa, published, sizeof lsa);
    check(ospf_lsa_checksum_check(lsa, 48) == OSPF_CHECKSUM_GOOD, "a router's checksum");
    lsa[47]++;
    check(ospf_lsa_checksum_check(lsa, 48) == OSPF_CHECKSUM_BAD, "a damaged LSA");
    lsa[47]--, lsa[16] = 0, lsa[17] = 0, lsa[1]++;
    check(ospf_checksum(ospf_lsa_checksum_make(lsa, 48)) == 0x3A9C, "the checksum, made again");
    lsa[1]--;
    check(memcmp(lsa, published, sizeof lsa) == 0, "two bytes are written");
    check(ospf_lsa_checksum_check(lsa, 19) == refused(OSPF_REFUSED_LSA_LENGTH, 0), "19 bytes checked");
    check(ospf_lsa_checksum_make(lsa, 19) == refused(OSPF_REFUSED_LSA_LENGTH, 0), "19 bytes made");
    check(memcmp(lsa, published, sizeof lsa) == 0, "nothing is written");
    check(ospf_lsa_checksum_make(longest, 65535) == 0xFFFF, "65,535 bytes made");
    check(ospf_checksum(ospf_lsa_checksum_check(longest, 65535)) == OSPF_CHECKSUM_GOOD, "65,535 bytes checked");
    check(ospf_lsa_checksum_check(longest, 65536) == refused(OSPF_REFUSED_LSA_LENGTH, 0), "65,536 bytes checked");
}

/* An update of one LSA of version 3, with another value in each field and in each byte of a field, and the row of it. */
static const uint8_t one_lsa[24] = {0,    0,    0,    1,    0x04, 0x03, 0xA1, 0xB2, 0x0B, 0x0C, 0x0D, 0x0E,
                                    0x11, 0x12, 0x13, 0x14, 0x85, 0x86, 0x87, 0x88, 0x91, 0x92, 0,    20};
static const struct ospf_row its_row = {3, 1, 0xA1B2, 0x0B0C0D0E, 0x11121314, 0x85868788, 0x9192, 0x0403};

static int same_row(const struct ospf_row *a, const struct ospf_row *b)
{
    return a->version == b->version && a->used == b->used && a->ls_type == b->ls_type &&
           a->link_state_id == b->link_state_id && a->advertising_router == b->advertising_router &&
           a->sequence == b->sequence && a->checksum == b->checksum && a->age == b->age;
}

/* The update taken against one row, between rows that stay as they are; the row afterwards. */
static uint64_t taken_against(struct ospf_row *row)
{
    const struct ospf_row next_to = {0xA5, 0, 0xA5A5, 0xA5A5A5A5, 0xA5A5A5A5, 0xA5A5A5A5, 0xA5A5, 0xA5A5};
    struct ospf_row rows[3] = {next_to, *row, next_to};
    uint64_t answer = ospf_book_update(3, one_lsa, sizeof one_lsa, 1, 0, rows + 1, 1);
    check(same_row(rows, &next_to) && same_row(rows + 2, &next_to), "rows next to the lent one");
    *row = rows[1];
    return answer;
}

/* The update is taken as newer, as the same or older, or as new, which a table of one used row refuses. */
static void check_taken(const char *what, struct ospf_row row, uint64_t expected)
{
    struct ospf_row after = row;
    check(taken_against(&after) == expected, what);
    check(same_row(&after, expected == 1 ? &its_row : &row), what);
}

/* Each field of a row written by the library and read here, and written here and read by the library. */
static void rows(void)
{
    const uint64_t is_new = refused(OSPF_REFUSED_NO_FREE_ROW, 0), newer = 1, left = 0;
    struct ospf_row row = {0};
    check(sizeof row == 20, "a row has 20 bytes");
    uint64_t answer = taken_against(&row);
    check(ospf_number(answer) == 0 && ospf_replaced(answer) == 0 && ospf_added(answer) == 1, "a row added");
    check(row.version == 3 && row.used == 1, "version and mark, written");
    check(row.ls_type == 0xA1B2, "LS type, written");
    check(row.link_state_id == 0x0B0C0D0E, "link state id, written");
    check(row.advertising_router == 0x11121314, "advertising router, written");
    check(row.sequence == 0x85868788, "sequence number, written");
    check(row.checksum == 0x9192 && row.age == 0x0403, "checksum and age, written");

    check_taken("the same row", its_row, left);
    row = its_row, row.used = 255;
    check_taken("another mark, read", row, left);
    row = its_row, row.version = 2;
    check_taken("version, read", row, is_new);
    row = its_row, row.ls_type ^= 0x8000;
    check_taken("LS type, read", row, is_new);
    row = its_row, row.link_state_id++;
    check_taken("link state id, read", row, is_new);
    row = its_row, row.advertising_router ^= 0x01000000;
    check_taken("advertising router, read", row, is_new);
    row = its_row, row.sequence--;
    check_taken("an older sequence number, read", row, newer);
    row = its_row, row.sequence--, row.used = 255;
    check_taken("another mark, replaced", row, newer);
    row = its_row, row.sequence++;
    check_taken("a newer sequence number, read", row, left);
    row = its_row, row.checksum--;
    check_taken("a smaller checksum, read", row, newer);
    row = its_row, row.checksum++;
    check_taken("a larger checksum, read", row, left);
    row = its_row, row.age += 901;
    check_taken("an older age, read", row, newer);
    row = its_row, row.age += 900;
    check_taken("an age that is the same, read", row, left);
    row = its_row, row.age = 3601;
    check_taken("an age of 3,601, read", row, refused(OSPF_REFUSED_AGE, 0));

    /* Both counts: a row replaced, then one added where the mark is 0, whatever else lies there. */
    uint8_t data[44];
    memcpy(data, one_lsa, 24), memcpy(data + 24, one_lsa + 4, 20), data[31]++;
    struct ospf_row two[2] = {its_row, its_row};
    two[0].sequence--, two[1].used = 0;
    answer = ospf_book_update(3, data, sizeof data, 2, 4294901760, two, 2);
    check(answer == ((uint64_t)1 << 40 | 1) && ospf_replaced(answer) == 1 && ospf_added(answer) == 1, "both counts");
    check(same_row(two, &its_row), "the row that was replaced");
    check(two[1].used == 1 && two[1].link_state_id == its_row.link_state_id + 1, "the row that was added");

    /* Refused, in their order; the rows are as they were. */
    static const uint8_t longest[65536];
    struct ospf_row before[2] = {two[0], two[0]}, after[2] = {two[0], two[0]};
    check(ospf_book_update(4, longest, 65536, 1, 4294901761, after, 2) == refused(OSPF_REFUSED_VERSION, 0), "book, refusal 1");
    check(ospf_book_update(2, longest, 65536, 1, 4294901761, after, 2) == refused(OSPF_REFUSED_TOO_LONG, 0), "book, refusal 2");
    check(ospf_book_update(2, longest, 3, 1, 4294901761, after, 2) == refused(OSPF_REFUSED_OFFSET, 0), "book, refusal 3");
    check(ospf_book_update(2, longest, 3, 1, 0, after, 2) == refused(OSPF_REFUSED_TOO_SHORT, 0), "book, refusal 4");
    check(ospf_book_update(3, data, 44, 2, 0, after, 2) == refused(OSPF_REFUSED_SHARED_IDENTITY, 0), "book, refusal 14");
    check(ospf_book_update(3, data, 44, 2, 0, after, 1) == refused(OSPF_REFUSED_NO_FREE_ROW, 0), "book, refusal 15");
    data[4] = 0xFF;
    check(ospf_book_update(3, data, 44, 2, 0, after, 2) == refused(OSPF_REFUSED_AGE, 0), "book, refusal 11");
    check(same_row(after, before) && same_row(after + 1, before + 1), "a refused update writes nothing");
    check(ospf_book_update(2, longest, 4, 1, 0, after, 0) == 0, "no LSA and no row");
}

/* What is no walk's strip: every byte as a kind, and every entry cut at every byte. */
static void steps(void)
{
    uint8_t strip[40];
    int same = 1;
    memset(strip, 0xA5, sizeof strip);
    for (unsigned kind = 0; kind < 256; kind++) {
        strip[0] = (uint8_t)kind;
        for (size_t length = 0; length <= sizeof strip; length++) {
            same &= same_steps(strip, length);
        }
    }
    check(same, "every step");
    check(ospf_strip_step(strip, 4, SIZE_MAX) == refused(OSPF_REFUSED_PLACE, 0), "the largest place");
    for (size_t length = 0; length <= sizeof strip; length++) {
        const ospf_entry before = {strip, SIZE_MAX - length, OSPF_KIND_U8, 0};
        same &= ospf_next(strip, length, before).refused == OSPF_REFUSED_PLACE;
    }
    check(same, "an entry whose next place is beyond the strip");
}

/* Each refusal by its number, and nothing written. */
static void refusals(void)
{
    static const uint8_t data[65536];
    uint8_t strip[14], before[14];
    memset(before, 0xA5, sizeof before);
    memcpy(strip, before, sizeof before);
    check(ospf_lsa_headers(4, data, 0, 0, strip, 14) == refused(OSPF_REFUSED_VERSION, 0), "refusal 1");
    check(ospf_lsa(2, data, 65536, 0, strip, 14) == refused(OSPF_REFUSED_TOO_LONG, 0), "refusal 2");
    check(ospf_lsu_lsas(3, data, 4, 0, 4294901761, strip, 14) == refused(OSPF_REFUSED_OFFSET, 0), "refusal 3");
    check(ospf_lsu_lsas(3, data, 3, 0, 4294901760, strip, 14) == refused(OSPF_REFUSED_TOO_SHORT, 0), "refusal 4");
    uint64_t answer = ospf_lsa_headers(2, data, 0, 0, strip, 14);
    check(ospf_number(answer) == OSPF_REFUSED_ROOM && ospf_length(answer) == 15, "refusal 5");
    check(memcmp(strip, before, sizeof before) == 0, "a refused call writes nothing");
}

int main(void)
{
    headers();
    update();
    single();
    unreachable_metrics();
    lls();
    auth_trailer();
    no_blocks();
    newness();
    prefixes();
    checksums();
    rows();
    steps();
    refusals();
    printf("c: %d checks passed\n", passed);
    return failed != 0;
}
