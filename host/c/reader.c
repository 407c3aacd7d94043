/*
 * The reader of include/ospf.h for programs that are not in C: one step with all that it reads, a whole strip, as its
 * entries and as a sum, and the names of ids. host/c-reader has these for Rust.
 */
#include <string.h>

#include "ospf.h"

/* All that can be read of an entry. What it does not have is 0. */
typedef struct reader_step {
    uint64_t high, low; /* an IPv6 address in two halves; any other value in low */
    size_t next;
    uint32_t start, end, count;
    uint8_t kind, refused, id;
} reader_step;

static void read_value(ospf_entry entry, reader_step *step)
{
    switch (entry.kind) {
    case OSPF_KIND_OPEN: step->count = ospf_count(entry); break;
    case OSPF_KIND_U8: step->low = ospf_u8(entry); break;
    case OSPF_KIND_U16: step->low = ospf_u16(entry); break;
    case OSPF_KIND_U32:
    case OSPF_KIND_IPV4: step->low = ospf_u32(entry); break;
    case OSPF_KIND_IPV6:
        step->high = ospf_be64(ospf_ipv6(entry));
        step->low = ospf_be64(ospf_ipv6(entry) + 8);
        break;
    case OSPF_KIND_U64: step->low = ospf_u64(entry); break;
    default: break;
    }
}

static void read_entry(ospf_entry entry, reader_step *step)
{
    const reader_step nothing = {0, 0, 0, 0, 0, 0, 0, 0, 0};
    *step = nothing;
    step->next = entry.next;
    step->kind = entry.kind;
    step->refused = entry.refused;
    if (entry.kind != 0 && entry.kind != OSPF_KIND_CLOSE) {
        step->id = ospf_id(entry);
        step->start = ospf_start(entry);
        step->end = ospf_end(entry);
        read_value(entry, step);
    }
}

void reader_step_at(const uint8_t *strip, size_t length, size_t place, reader_step *step)
{
    read_entry(ospf_step(strip, length, place), step);
}

/* What ospf_next gives, and the refusal that ends it or 0. There is room for as many steps as the strip has bytes. */
uint8_t reader_next(const uint8_t *strip, size_t length, reader_step *steps, size_t *count)
{
    ospf_entry entry = ospf_begin();
    *count = 0;
    while ((entry = ospf_next(strip, length, entry)).kind != 0) read_entry(entry, &steps[(*count)++]);
    return entry.refused;
}

/* The sum of every id, start, end, value and count of a strip, modulo 2^64; where an entry is refused, of those before
   it. */
uint64_t reader_read_all(const uint8_t *strip, size_t length)
{
    uint64_t sum = 0;
    ospf_entry entry = ospf_begin();
    while ((entry = ospf_next(strip, length, entry)).kind != 0) {
        switch (entry.kind) {
        case OSPF_KIND_CLOSE: break;
        case OSPF_KIND_OPEN:
            sum += (uint64_t)ospf_id(entry) + ospf_start(entry) + ospf_end(entry) + ospf_count(entry);
            break;
        case OSPF_KIND_BYTES:
        case OSPF_KIND_UNREACHABLE:
            sum += (uint64_t)ospf_id(entry) + ospf_start(entry) + ospf_end(entry);
            break;
        case OSPF_KIND_U8:
            sum += (uint64_t)ospf_id(entry) + ospf_start(entry) + ospf_end(entry) + ospf_u8(entry);
            break;
        case OSPF_KIND_U16:
            sum += (uint64_t)ospf_id(entry) + ospf_start(entry) + ospf_end(entry) + ospf_u16(entry);
            break;
        case OSPF_KIND_U32:
        case OSPF_KIND_IPV4:
            sum += (uint64_t)ospf_id(entry) + ospf_start(entry) + ospf_end(entry) + ospf_u32(entry);
            break;
        case OSPF_KIND_IPV6:
            sum += (uint64_t)ospf_id(entry) + ospf_start(entry) + ospf_end(entry);
            sum += ospf_be64(ospf_ipv6(entry)) + ospf_be64(ospf_ipv6(entry) + 8);
            break;
        case OSPF_KIND_U64:
            sum += (uint64_t)ospf_id(entry) + ospf_start(entry) + ospf_end(entry) + ospf_u64(entry);
            break;
        }
    }
    return sum;
}

/* The length of a name, which is written to name if there is room for it; 0 where the version has no such id. */
size_t reader_name(uint8_t version, uint8_t id, uint8_t *name, size_t room)
{
    const char *text = ospf_name(version, id);
    size_t length = text == NULL ? 0 : strlen(text);
    if (0 < length && length <= room) memcpy(name, text, length);
    return length;
}
