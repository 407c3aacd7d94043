/*
 * The LSAs of OSPFv2 and OSPFv3 packets, and the blocks that may follow a packet, as a strip of fields, and whole
 * updates taken against a table of rows: the exports of libospf.a, which `tools/build ospf` writes to target/staticlib;
 * and, inline, a reader of strips. docs/STRIP.md has the format of strips and all ids.
 *
 * What a caller must know of the exports:
 * - A slice is a pointer and a length. The pointer is not null, whatever the length, and that to rows is aligned as a
 *   struct ospf_row is. Data and strip do not overlap, nor do data and rows.
 * - Nothing else is asked: what does not fit is refused by number. A refused call leaves what it was lent as it was.
 * - They keep no state, allocate nothing, and write to nothing but the strip_len bytes at strip, the rows_len rows at
 *   rows, or two bytes of the LSA whose checksum is made, so any number of threads may call them at once, each with a
 *   strip, rows or an LSA of its own.
 * - They take some hundred bytes of stack, whatever they are given, and ospf_book_update some 16 KiB
 *   (docs/BENCHMARKS.md, "Stack").
 */
#ifndef OSPF_H
#define OSPF_H

#include <stddef.h>
#include <stdint.h>

#ifdef __cplusplus
extern "C" {
#endif

/*
 * The walks. Each reads data_len bytes at data and writes to the strip_len bytes at strip. offset is the place of data
 * in its packet; every start and end in the strip is counted from the packet's front.
 */

/* A list of LSA headers, as Database Description and Link State Acknowledgment packets have it. */
uint64_t ospf_lsa_headers(uint8_t version, const uint8_t *data, size_t data_len, uint64_t offset, uint8_t *strip,
                          size_t strip_len);

/* The body of a Link State Update, from its number of LSAs on; at most count LSAs are taken. */
uint64_t ospf_lsu_lsas(uint8_t version, const uint8_t *data, size_t data_len, uint32_t count, uint64_t offset,
                       uint8_t *strip, size_t strip_len);

/* A single LSA, all of data. */
uint64_t ospf_lsa(uint8_t version, const uint8_t *data, size_t data_len, uint64_t offset, uint8_t *strip,
                  size_t strip_len);

/*
 * The blocks that may follow a packet. Each takes one at the front of data and writes its fields to strip, as a walk
 * does; what follows the block is not looked at. Where none stands there, the answer is 0: nothing is written, and no
 * room is needed. Refused, in this order: OSPF_REFUSED_TOO_LONG; _OFFSET; _ROOM, where a block stands there.
 */

/* An LLS data block (RFC 5613), of either version. The 16 bits at 2 have its length in words of four bytes; none stands
   there if that is 0 or beyond data. Its TLVs are one range. The strip has 49 bytes. */
uint64_t ospf_lls(const uint8_t *data, size_t data_len, uint64_t offset, uint8_t *strip, size_t strip_len);

/* The authentication trailer of OSPFv3 (RFC 7166). The 16 bits at 2 have its length in bytes; none stands there if that
   is below 16 or beyond data. The digest is not checked. The strip has 79 bytes. */
uint64_t ospf_auth_trailer(const uint8_t *data, size_t data_len, uint64_t offset, uint8_t *strip, size_t strip_len);

/*
 * The comparisons and the proved step. They write nothing; first and second may overlap.
 */

/*
 * Which of two LSAs of one version is newer (RFC 2328 13.1), by their headers, the first 20 bytes of each.
 * Refused, in this order: OSPF_REFUSED_VERSION; _TOO_SHORT, either below 20 bytes; _AGE, either LS age above 3,600.
 */
uint64_t ospf_newness(uint8_t version, const uint8_t *first, size_t first_len, const uint8_t *second,
                      size_t second_len);

/*
 * Whether two prefixes are the same: their lengths in bits, and the first bits of their addresses, as many as the length
 * says; the bits past them are padding (RFC 5340 A.4.1) and may hold anything. An address is the bytes given, then zeros
 * to 16; more than 16 are cut. So a prefix's octets can be handed over as they lie in a packet.
 * Refused: OSPF_REFUSED_PREFIX_LENGTH, either length above 128.
 */
uint64_t ospf_prefix_compare(uint8_t first_length, const uint8_t *first, size_t first_len, uint8_t second_length,
                             const uint8_t *second, size_t second_len);

/*
 * What stands at a place of a strip: the entry's length, the byte of its kind included; 0 at the strip's end.
 * Refused: OSPF_REFUSED_PLACE, _KIND, _CUT. The inline ospf_step below says the same without a call.
 */
uint64_t ospf_strip_step(const uint8_t *strip, size_t strip_len, size_t place);

/*
 * The LS checksum of an LSA (RFC 2328 12.1.7). It covers the lsa_len bytes at lsa but the first two, the LS age, whatever
 * length the LSA declares. Refused: OSPF_REFUSED_LSA_LENGTH.
 */

/* Whether it is right: OSPF_CHECKSUM_GOOD or _BAD. */
uint64_t ospf_lsa_checksum_check(const uint8_t *lsa, size_t lsa_len);

/* Makes it, and writes it to bytes 16 and 17 of the LSA; the answer is these two as a number of 16 bits. */
uint64_t ospf_lsa_checksum_make(uint8_t *lsa, size_t lsa_len);

/*
 * A row of the book, in the machine's byte order: what tells an LSA apart from others (RFC 2328 12.1, and the version),
 * and what tells its instances apart. Version, LS type, link state id and advertising router are the LSA's identity.
 */
typedef struct ospf_row {
    uint8_t version;  /* 2 or 3 */
    uint8_t used;     /* the mark: 0 in an unused row, which may hold anything else; an update writes 1 */
    uint16_t ls_type; /* one byte in version 2, all 16 bits in version 3 */
    uint32_t link_state_id;
    uint32_t advertising_router;
    uint32_t sequence; /* LS sequence number; its sign is the highest bit */
    uint16_t checksum; /* LS checksum */
    uint16_t age;      /* LS age when the row was written */
} ospf_row;

/* The library's row has 20 bytes. */
#if defined(__cplusplus) && __cplusplus >= 201103L
static_assert(sizeof(struct ospf_row) == 20, "a row has 20 bytes");
#elif defined(__STDC_VERSION__) && __STDC_VERSION__ >= 201112L
_Static_assert(sizeof(struct ospf_row) == 20, "a row has 20 bytes");
#endif

/*
 * Takes the LSAs of a Link State Update's body, those that ospf_lsu_lsas takes, one after another against the rows_len
 * rows at rows, which are aligned as a struct ospf_row is and do not overlap data. An LSA whose identity a used row has
 * replaces that row if it is newer (RFC 2328 13.1), and leaves it if it is the same or older; any other LSA takes the
 * first unused row. The answer has how many rows were replaced and how many added. offset is the place of data in its
 * packet, as for the walks; it is only tested.
 * Refused, in this order: OSPF_REFUSED_VERSION; _TOO_LONG; _OFFSET; _TOO_SHORT, below 4 bytes; _AGE, of an LSA or of a
 * used row above 3,600; _SHARED_IDENTITY; _NO_FREE_ROW. Then all rows are as they were.
 */
uint64_t ospf_book_update(uint8_t version, const uint8_t *data, size_t data_len, uint32_t count, uint64_t offset,
                          struct ospf_row *rows, size_t rows_len);

/*
 * An export's answer: a number of 64 bits. The low 32 have what was asked, the next 8 the number of a refusal, 0 if
 * there is none, and the upper 24 the length of the block that ospf_lls or ospf_auth_trailer took, or how many rows
 * ospf_book_update added, else 0.
 */

/* The number of a refusal, from any answer; 0 if there is none. */
static inline uint8_t ospf_number(uint64_t answer) { return (uint8_t)(answer >> 32); }

/* The length, from the answer of a walk, of a block or of ospf_strip_step. With OSPF_REFUSED_ROOM it is the length
   needed, with any other refusal 0. */
static inline uint32_t ospf_length(uint64_t answer) { return (uint32_t)answer; }

/* How many bytes of data the block takes, from the answer of ospf_lls or ospf_auth_trailer; 0 where none stands there,
   and where refused. */
static inline uint32_t ospf_block(uint64_t answer) { return (uint32_t)(answer >> 40); }

/* What a comparison found: OSPF_NEWNESS_.. or OSPF_PREFIX_.., where it was not refused. */
static inline uint32_t ospf_compared(uint64_t answer) { return (uint32_t)answer; }

/* Whether a checksum is right, from the answer of the check; the checksum, from that of the making; 0 if refused. */
static inline uint32_t ospf_checksum(uint64_t answer) { return (uint32_t)answer; }

/* How many rows an update replaced, and how many it added, from the answer of ospf_book_update; 0 if refused. */
static inline uint32_t ospf_replaced(uint64_t answer) { return (uint32_t)answer; }

static inline uint32_t ospf_added(uint64_t answer) { return (uint32_t)(answer >> 40); }

enum {
    OSPF_REFUSED_VERSION = 1,          /* the version is neither 2 nor 3 */
    OSPF_REFUSED_TOO_LONG = 2,         /* more than 65,535 bytes of data */
    OSPF_REFUSED_OFFSET = 3,           /* the offset is above 4,294,901,760 */
    OSPF_REFUSED_TOO_SHORT = 4,        /* fewer than 4 bytes of an update, or than 20 of an LSA */
    OSPF_REFUSED_ROOM = 5,             /* the strip is longer than strip_len */
    OSPF_REFUSED_PLACE = 6,            /* the place is beyond the strip */
    OSPF_REFUSED_KIND = 7,             /* there is no such kind of entry */
    OSPF_REFUSED_CUT = 8,              /* the strip ends before the entry does */
    OSPF_REFUSED_PREFIX_LENGTH = 10,   /* a prefix length above 128 */
    OSPF_REFUSED_AGE = 11,             /* an LS age above 3,600, of an LSA or of a used row */
    OSPF_REFUSED_LSA_LENGTH = 13,      /* fewer than 20 or more than 65,535 bytes of an LSA for its checksum */
    OSPF_REFUSED_SHARED_IDENTITY = 14, /* two used rows share an identity */
    OSPF_REFUSED_NO_FREE_ROW = 15      /* more new identities than unused rows */
};

enum { OSPF_NEWNESS_SAME = 0, OSPF_NEWNESS_FIRST = 1, OSPF_NEWNESS_SECOND = 2 };

enum { OSPF_PREFIX_DIFFERENT = 0, OSPF_PREFIX_SAME = 1 };

enum { OSPF_CHECKSUM_BAD = 0, OSPF_CHECKSUM_GOOD = 1 };

/* Generated from here on: `cargo run --offline -p c-header` in host/ writes it anew. */

/* What an entry is: the first byte of each. OSPF_KIND_UNREACHABLE is a 24-bit metric of all ones. */
enum {
    OSPF_KIND_OPEN = 1,
    OSPF_KIND_CLOSE = 2,
    OSPF_KIND_U8 = 3,
    OSPF_KIND_U16 = 4,
    OSPF_KIND_U32 = 5,
    OSPF_KIND_IPV4 = 6,
    OSPF_KIND_IPV6 = 7,
    OSPF_KIND_BYTES = 8,
    OSPF_KIND_UNREACHABLE = 9,
    OSPF_KIND_U64 = 10
};

/* How many bytes follow it: id, start and end of every kind but a close, then the value, or the count of an open. */
enum {
    OSPF_BODY_OPEN = 13,
    OSPF_BODY_CLOSE = 0,
    OSPF_BODY_U8 = 10,
    OSPF_BODY_U16 = 11,
    OSPF_BODY_U32 = 13,
    OSPF_BODY_IPV4 = 13,
    OSPF_BODY_IPV6 = 25,
    OSPF_BODY_BYTES = 9,
    OSPF_BODY_UNREACHABLE = 9,
    OSPF_BODY_U64 = 17
};

/* The fields' ids in version 2. */
enum {
    OSPF_V2_LS_AGE = 0,
    OSPF_V2_OPTIONS = 1,
    OSPF_V2_LS_TYPE = 2,
    OSPF_V2_LINK_STATE_ID = 3,
    OSPF_V2_ADVERTISING_ROUTER = 4,
    OSPF_V2_LS_SEQUENCE_NUMBER = 5,
    OSPF_V2_LS_CHECKSUM = 6,
    OSPF_V2_LENGTH = 7,
    OSPF_V2_OPAQUE_TYPE = 8,
    OSPF_V2_OPAQUE_ID = 9,
    OSPF_V2_FLAGS = 10,
    OSPF_V2_FLAG_NT = 11,
    OSPF_V2_FLAG_V = 12,
    OSPF_V2_FLAG_E = 13,
    OSPF_V2_FLAG_B = 14,
    OSPF_V2_NUM_LINKS = 15,
    OSPF_V2_LINKS = 16,
    OSPF_V2_NETWORK_MASK = 17,
    OSPF_V2_ATTACHED_ROUTERS = 18,
    OSPF_V2_METRIC = 19,
    OSPF_V2_TOS_METRICS = 20,
    OSPF_V2_FORWARDING_ADDRESS = 21,
    OSPF_V2_EXTERNAL_ROUTE_TAG = 22,
    OSPF_V2_BODY = 23,
    OSPF_V2_TLVS = 24,
    OSPF_V2_UNPARSED = 25,
    OSPF_V2_LINK_ID = 64,
    OSPF_V2_LINK_DATA = 65,
    OSPF_V2_LINK_TYPE = 66,
    OSPF_V2_NUM_TOS = 67,
    OSPF_V2_LINK_METRIC = 68,
    OSPF_V2_LINK_TOS_METRICS = 69,
    OSPF_V2_TOS_FLAG_E = 80,
    OSPF_V2_TOS = 81,
    OSPF_V2_TOS_METRIC = 82,
    OSPF_V2_TOS_FORWARDING_ADDRESS = 83,
    OSPF_V2_TOS_EXTERNAL_ROUTE_TAG = 84
};

/* The fields' ids in version 3. */
enum {
    OSPF_V3_LS_AGE = 0,
    OSPF_V3_LS_TYPE = 1,
    OSPF_V3_LINK_STATE_ID = 2,
    OSPF_V3_ADVERTISING_ROUTER = 3,
    OSPF_V3_LS_SEQUENCE_NUMBER = 4,
    OSPF_V3_LS_CHECKSUM = 5,
    OSPF_V3_LENGTH = 6,
    OSPF_V3_FLAGS = 7,
    OSPF_V3_FLAG_NT = 8,
    OSPF_V3_FLAG_V = 9,
    OSPF_V3_FLAG_E = 10,
    OSPF_V3_FLAG_B = 11,
    OSPF_V3_FLAG_F = 12,
    OSPF_V3_FLAG_T = 13,
    OSPF_V3_OPTIONS = 14,
    OSPF_V3_LINKS = 15,
    OSPF_V3_ATTACHED_ROUTERS = 16,
    OSPF_V3_METRIC = 17,
    OSPF_V3_PREFIX_LENGTH = 18,
    OSPF_V3_PREFIX_OPTIONS = 19,
    OSPF_V3_PREFIX = 20,
    OSPF_V3_DESTINATION_ROUTER_ID = 21,
    OSPF_V3_REFERENCED_LS_TYPE = 22,
    OSPF_V3_FORWARDING_ADDRESS = 23,
    OSPF_V3_EXTERNAL_ROUTE_TAG = 24,
    OSPF_V3_REFERENCED_LINK_STATE_ID = 25,
    OSPF_V3_ROUTER_PRIORITY = 26,
    OSPF_V3_LINK_LOCAL_ADDRESS = 27,
    OSPF_V3_NUM_PREFIXES = 28,
    OSPF_V3_PREFIXES = 29,
    OSPF_V3_REFERENCED_ADVERTISING_ROUTER = 30,
    OSPF_V3_BODY = 31,
    OSPF_V3_TLVS = 32,
    OSPF_V3_UNPARSED = 33,
    OSPF_V3_LINK_TYPE = 64,
    OSPF_V3_LINK_METRIC = 65,
    OSPF_V3_INTERFACE_ID = 66,
    OSPF_V3_NEIGHBOR_INTERFACE_ID = 67,
    OSPF_V3_NEIGHBOR_ROUTER_ID = 68,
    OSPF_V3_LIST_PREFIX_LENGTH = 80,
    OSPF_V3_LIST_PREFIX_OPTIONS = 81,
    OSPF_V3_LIST_PREFIX_METRIC = 82,
    OSPF_V3_LIST_PREFIX = 83
};

/* The ids that mean the same in both versions. */
enum {
    OSPF_ID_LINK = 96,
    OSPF_ID_TOS_METRIC_OR_PREFIX = 97,
    OSPF_ID_ATTACHED_ROUTER = 98,
    OSPF_ID_HEADER = 112,
    OSPF_ID_LSA = 113,
    OSPF_ID_OUTER = 114,
    OSPF_ID_LLS_CHECKSUM = 128,
    OSPF_ID_LLS_DATA_LENGTH = 129,
    OSPF_ID_LLS_TLVS = 130,
    OSPF_ID_LLS = 136,
    OSPF_ID_AUTH_TYPE = 144,
    OSPF_ID_AUTH_DATA_LEN = 145,
    OSPF_ID_SA_ID = 146,
    OSPF_ID_CRYPTO_SEQUENCE_NUMBER = 147,
    OSPF_ID_AUTH_DATA = 148,
    OSPF_ID_AUTH_TRAILER = 152
};

static inline const char *ospf_name_v2(uint8_t id)
{
    switch (id) {
    case OSPF_V2_LS_AGE: return "ls_age";
    case OSPF_V2_OPTIONS: return "options";
    case OSPF_V2_LS_TYPE: return "ls_type";
    case OSPF_V2_LINK_STATE_ID: return "link_state_id";
    case OSPF_V2_ADVERTISING_ROUTER: return "advertising_router";
    case OSPF_V2_LS_SEQUENCE_NUMBER: return "ls_sequence_number";
    case OSPF_V2_LS_CHECKSUM: return "ls_checksum";
    case OSPF_V2_LENGTH: return "length";
    case OSPF_V2_OPAQUE_TYPE: return "opaque_type";
    case OSPF_V2_OPAQUE_ID: return "opaque_id";
    case OSPF_V2_FLAGS: return "flags";
    case OSPF_V2_FLAG_NT: return "flag_nt";
    case OSPF_V2_FLAG_V: return "flag_v";
    case OSPF_V2_FLAG_E: return "flag_e";
    case OSPF_V2_FLAG_B: return "flag_b";
    case OSPF_V2_NUM_LINKS: return "num_links";
    case OSPF_V2_LINKS: return "links";
    case OSPF_V2_NETWORK_MASK: return "network_mask";
    case OSPF_V2_ATTACHED_ROUTERS: return "attached_routers";
    case OSPF_V2_METRIC: return "metric";
    case OSPF_V2_TOS_METRICS: return "tos_metrics";
    case OSPF_V2_FORWARDING_ADDRESS: return "forwarding_address";
    case OSPF_V2_EXTERNAL_ROUTE_TAG: return "external_route_tag";
    case OSPF_V2_BODY: return "body";
    case OSPF_V2_TLVS: return "tlvs";
    case OSPF_V2_UNPARSED: return "unparsed";
    case OSPF_V2_LINK_ID: return "link_id";
    case OSPF_V2_LINK_DATA: return "link_data";
    case OSPF_V2_LINK_TYPE: return "link_type";
    case OSPF_V2_NUM_TOS: return "num_tos";
    case OSPF_V2_LINK_METRIC: return "metric";
    case OSPF_V2_LINK_TOS_METRICS: return "tos_metrics";
    case OSPF_V2_TOS_FLAG_E: return "flag_e";
    case OSPF_V2_TOS: return "tos";
    case OSPF_V2_TOS_METRIC: return "metric";
    case OSPF_V2_TOS_FORWARDING_ADDRESS: return "forwarding_address";
    case OSPF_V2_TOS_EXTERNAL_ROUTE_TAG: return "external_route_tag";
    case OSPF_ID_LINK: return "link";
    case OSPF_ID_TOS_METRIC_OR_PREFIX: return "tos_metric";
    case OSPF_ID_ATTACHED_ROUTER: return "attached_router";
    case OSPF_ID_HEADER: return "lsa_header";
    case OSPF_ID_LSA: return "lsa";
    case OSPF_ID_OUTER: return "lsas";
    case OSPF_ID_LLS_CHECKSUM: return "checksum";
    case OSPF_ID_LLS_DATA_LENGTH: return "lls_data_length";
    case OSPF_ID_LLS_TLVS: return "tlvs";
    case OSPF_ID_LLS: return "lls";
    case OSPF_ID_AUTH_TYPE: return "auth_type";
    case OSPF_ID_AUTH_DATA_LEN: return "auth_data_len";
    case OSPF_ID_SA_ID: return "sa_id";
    case OSPF_ID_CRYPTO_SEQUENCE_NUMBER: return "crypto_sequence_number";
    case OSPF_ID_AUTH_DATA: return "auth_data";
    case OSPF_ID_AUTH_TRAILER: return "auth_trailer";
    default: return NULL;
    }
}

static inline const char *ospf_name_v3(uint8_t id)
{
    switch (id) {
    case OSPF_V3_LS_AGE: return "ls_age";
    case OSPF_V3_LS_TYPE: return "ls_type";
    case OSPF_V3_LINK_STATE_ID: return "link_state_id";
    case OSPF_V3_ADVERTISING_ROUTER: return "advertising_router";
    case OSPF_V3_LS_SEQUENCE_NUMBER: return "ls_sequence_number";
    case OSPF_V3_LS_CHECKSUM: return "ls_checksum";
    case OSPF_V3_LENGTH: return "length";
    case OSPF_V3_FLAGS: return "flags";
    case OSPF_V3_FLAG_NT: return "flag_nt";
    case OSPF_V3_FLAG_V: return "flag_v";
    case OSPF_V3_FLAG_E: return "flag_e";
    case OSPF_V3_FLAG_B: return "flag_b";
    case OSPF_V3_FLAG_F: return "flag_f";
    case OSPF_V3_FLAG_T: return "flag_t";
    case OSPF_V3_OPTIONS: return "options";
    case OSPF_V3_LINKS: return "links";
    case OSPF_V3_ATTACHED_ROUTERS: return "attached_routers";
    case OSPF_V3_METRIC: return "metric";
    case OSPF_V3_PREFIX_LENGTH: return "prefix_length";
    case OSPF_V3_PREFIX_OPTIONS: return "prefix_options";
    case OSPF_V3_PREFIX: return "prefix";
    case OSPF_V3_DESTINATION_ROUTER_ID: return "destination_router_id";
    case OSPF_V3_REFERENCED_LS_TYPE: return "referenced_ls_type";
    case OSPF_V3_FORWARDING_ADDRESS: return "forwarding_address";
    case OSPF_V3_EXTERNAL_ROUTE_TAG: return "external_route_tag";
    case OSPF_V3_REFERENCED_LINK_STATE_ID: return "referenced_link_state_id";
    case OSPF_V3_ROUTER_PRIORITY: return "router_priority";
    case OSPF_V3_LINK_LOCAL_ADDRESS: return "link_local_address";
    case OSPF_V3_NUM_PREFIXES: return "num_prefixes";
    case OSPF_V3_PREFIXES: return "prefixes";
    case OSPF_V3_REFERENCED_ADVERTISING_ROUTER: return "referenced_advertising_router";
    case OSPF_V3_BODY: return "body";
    case OSPF_V3_TLVS: return "tlvs";
    case OSPF_V3_UNPARSED: return "unparsed";
    case OSPF_V3_LINK_TYPE: return "link_type";
    case OSPF_V3_LINK_METRIC: return "metric";
    case OSPF_V3_INTERFACE_ID: return "interface_id";
    case OSPF_V3_NEIGHBOR_INTERFACE_ID: return "neighbor_interface_id";
    case OSPF_V3_NEIGHBOR_ROUTER_ID: return "neighbor_router_id";
    case OSPF_V3_LIST_PREFIX_LENGTH: return "prefix_length";
    case OSPF_V3_LIST_PREFIX_OPTIONS: return "prefix_options";
    case OSPF_V3_LIST_PREFIX_METRIC: return "metric";
    case OSPF_V3_LIST_PREFIX: return "prefix";
    case OSPF_ID_LINK: return "link";
    case OSPF_ID_TOS_METRIC_OR_PREFIX: return "prefix_entry";
    case OSPF_ID_ATTACHED_ROUTER: return "attached_router";
    case OSPF_ID_HEADER: return "lsa_header";
    case OSPF_ID_LSA: return "lsa";
    case OSPF_ID_OUTER: return "lsas";
    case OSPF_ID_LLS_CHECKSUM: return "checksum";
    case OSPF_ID_LLS_DATA_LENGTH: return "lls_data_length";
    case OSPF_ID_LLS_TLVS: return "tlvs";
    case OSPF_ID_LLS: return "lls";
    case OSPF_ID_AUTH_TYPE: return "auth_type";
    case OSPF_ID_AUTH_DATA_LEN: return "auth_data_len";
    case OSPF_ID_SA_ID: return "sa_id";
    case OSPF_ID_CRYPTO_SEQUENCE_NUMBER: return "crypto_sequence_number";
    case OSPF_ID_AUTH_DATA: return "auth_data";
    case OSPF_ID_AUTH_TRAILER: return "auth_trailer";
    default: return NULL;
    }
}

/* The name of a field; null where the version has no such id. */
static inline const char *ospf_name(uint8_t version, uint8_t id)
{
    return version == 2 ? ospf_name_v2(id) : version == 3 ? ospf_name_v3(id) : NULL;
}

/* Generated up to here. */

/*
 * A strip read in C. An ordinary loop over the entries, which ends at the strip's end or where an entry is refused:
 *
 *     ospf_entry entry = ospf_begin();
 *     while ((entry = ospf_next(strip, length, entry)).kind != 0) {
 *         switch (entry.kind) {
 *         case OSPF_KIND_OPEN: ... ospf_id(entry), ospf_start(entry), ospf_end(entry), ospf_count(entry) ...; break;
 *         case OSPF_KIND_U16: ... ospf_u16(entry) ...; break;
 *         ...
 *         }
 *     }
 *     if (entry.refused != 0) ...
 *
 * ospf_step says what stands at any place.
 */

/* What stands at a place of a strip. */
typedef struct ospf_entry {
    const uint8_t *at; /* the entry's first byte; null where there is none */
    size_t next;       /* the place after the entry; where there is none the strip's length, so that a loop ends */
    uint8_t kind;      /* OSPF_KIND_..; 0 at the strip's end, and where refused */
    uint8_t refused;   /* OSPF_REFUSED_PLACE, _KIND or _CUT; 0 where an entry stands, and at the strip's end */
} ospf_entry;

#if defined(__GNUC__)
#define OSPF_UNLIKELY(condition) __builtin_expect(!!(condition), 0)
#define OSPF_ALWAYS_INLINE __attribute__((always_inline))
#else
#define OSPF_UNLIKELY(condition) (condition)
#define OSPF_ALWAYS_INLINE
#endif

/* An entry of this kind stands at the place. Each kind adds a constant of its own: with a table of lengths the next
   place would wait for the byte of the kind to be read, and after a predicted branch it does not. */
#define OSPF_FOUND(name)                       \
    entry.at = strip + place;                  \
    entry.next = place + 1 + OSPF_BODY_##name; \
    entry.kind = OSPF_KIND_##name;             \
    return entry;

/* An arm of ospf_step. */
#define OSPF_ARM(name)                                                      \
    if (OSPF_UNLIKELY(kind == OSPF_KIND_##name)) {                          \
        if (OSPF_UNLIKELY(length - place < 1 + OSPF_BODY_##name)) goto cut; \
        OSPF_FOUND(name)                                                    \
    }

/* What stands at a place. Only the place that equals the length is the strip's end. The kinds that are met least are
   tried last. */
static inline OSPF_ALWAYS_INLINE ospf_entry ospf_step(const uint8_t *strip, size_t length, size_t place)
{
    ospf_entry entry = {0, length, 0, 0};
    uint8_t kind;
    if (OSPF_UNLIKELY(place >= length)) {
        entry.refused = place > length ? OSPF_REFUSED_PLACE : 0;
        return entry;
    }
    kind = strip[place];
    OSPF_ARM(U16) OSPF_ARM(U8) OSPF_ARM(IPV4) OSPF_ARM(U32)
    OSPF_ARM(CLOSE) OSPF_ARM(OPEN) OSPF_ARM(IPV6) OSPF_ARM(BYTES) OSPF_ARM(U64) OSPF_ARM(UNREACHABLE)
    entry.refused = OSPF_REFUSED_KIND;
    return entry;
cut:
    entry.refused = OSPF_REFUSED_CUT;
    return entry;
}

/* Before the first entry: what ospf_next goes on from. */
static inline ospf_entry ospf_begin(void)
{
    ospf_entry entry = {0, 0, 0, 0};
    return entry;
}

/* An arm of ospf_next. */
#define OSPF_THEN(name)                            \
    if (OSPF_UNLIKELY(kind == OSPF_KIND_##name)) { \
        OSPF_FOUND(name)                           \
    }

/*
 * What stands after an entry of the same strip: ospf_step at the entry's next place. Where an entry of any kind would
 * fit, it first tries the kinds that often follow the entry's own. In a loop that switches on the kind, gcc then goes
 * from one case to the next by one branch.
 */
static inline OSPF_ALWAYS_INLINE ospf_entry ospf_next(const uint8_t *strip, size_t length, ospf_entry before)
{
    ospf_entry entry = {0, length, 0, 0};
    /* From so many of the last places the longest entry would not fit. */
    const size_t most = OSPF_BODY_IPV6, last = length < most ? length : most;
    size_t place = before.next;
    uint8_t kind;
    if (OSPF_UNLIKELY(place >= length - last)) return ospf_step(strip, length, place);
    kind = strip[place];
    switch (before.kind) {
    case OSPF_KIND_OPEN:
    case OSPF_KIND_BYTES: OSPF_THEN(U16) OSPF_THEN(U8) OSPF_THEN(IPV4) OSPF_THEN(OPEN) break;
    case OSPF_KIND_CLOSE: OSPF_THEN(OPEN) OSPF_THEN(CLOSE) break;
    case OSPF_KIND_U8: OSPF_THEN(U8) OSPF_THEN(U16) OSPF_THEN(U32) OSPF_THEN(IPV4) break;
    case OSPF_KIND_U16:
        OSPF_THEN(U16) OSPF_THEN(CLOSE) OSPF_THEN(U32) OSPF_THEN(OPEN) OSPF_THEN(U8) OSPF_THEN(IPV4) OSPF_THEN(IPV6)
        break;
    case OSPF_KIND_U32:
    case OSPF_KIND_UNREACHABLE:
    case OSPF_KIND_IPV4: OSPF_THEN(CLOSE) OSPF_THEN(IPV4) OSPF_THEN(U32) OSPF_THEN(U16) OSPF_THEN(U8) break;
    case OSPF_KIND_IPV6: OSPF_THEN(CLOSE) break;
    default: break;
    }
    return ospf_step(strip, length, place);
}

#undef OSPF_THEN
#undef OSPF_ARM
#undef OSPF_FOUND

/* Numbers as a strip has them, the highest byte first; a compiler makes one load of each. */
static inline uint16_t ospf_be16(const uint8_t *at) { return (uint16_t)(at[0] << 8 | at[1]); }

static inline uint32_t ospf_be32(const uint8_t *at)
{
    return (uint32_t)at[0] << 24 | (uint32_t)at[1] << 16 | (uint32_t)at[2] << 8 | at[3];
}

static inline uint64_t ospf_be64(const uint8_t *at) { return (uint64_t)ospf_be32(at) << 32 | ospf_be32(at + 4); }

/* The field's id, start and end, of an entry of any kind but OSPF_KIND_CLOSE. */
static inline uint8_t ospf_id(ospf_entry entry) { return entry.at[1]; }

static inline uint32_t ospf_start(ospf_entry entry) { return ospf_be32(entry.at + 2); }

static inline uint32_t ospf_end(ospf_entry entry) { return ospf_be32(entry.at + 6); }

/* How many entries are directly inside the container that an entry of OSPF_KIND_OPEN opens: a container among them
   counts once, closes do not. */
static inline uint32_t ospf_count(ospf_entry entry) { return ospf_be32(entry.at + 10); }

/* The value, of an entry of that kind; ospf_u32 also of OSPF_KIND_IPV4, an address as a number. OSPF_KIND_OPEN, _BYTES
   and _UNREACHABLE have none. */
static inline uint8_t ospf_u8(ospf_entry entry) { return entry.at[10]; }

static inline uint16_t ospf_u16(ospf_entry entry) { return ospf_be16(entry.at + 10); }

static inline uint32_t ospf_u32(ospf_entry entry) { return ospf_be32(entry.at + 10); }

static inline uint64_t ospf_u64(ospf_entry entry) { return ospf_be64(entry.at + 10); }

/* The 16 bytes of the address, of OSPF_KIND_IPV6; they lie in the strip. */
static inline const uint8_t *ospf_ipv6(ospf_entry entry) { return entry.at + 10; }

#undef OSPF_ALWAYS_INLINE
#undef OSPF_UNLIKELY

#ifdef __cplusplus
}
#endif

#endif
