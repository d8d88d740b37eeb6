/*
 * Quagfeather: a verified receive engine for two-sided messages of EFA RDM protocol v4.
 *
 * Link crates/quagfeather/out/libquagfeather.a, which `make library` writes. docs/EMBEDDING.md has the
 * words of states, calls, answers and packet values. No function keeps a pointer, allocates, or asks
 * more of its caller than that each pointer is valid for the length behind it (in elements) and that
 * nothing lent to be written overlaps what else is lent. A refusal's number is that of the
 * specification.
 */
#ifndef QUAGFEATHER_H
#define QUAGFEATHER_H

#include <stddef.h>
#include <stdint.h>

#ifdef __cplusplus
extern "C" {
#endif

/* Lengths: words of a state, a call, an answer, a packet's values; bytes of a reply. */
enum {
    QUAGFEATHER_STATE_WORDS = 1035,
    QUAGFEATHER_CALL_WORDS = 8,
    QUAGFEATHER_ANSWER_WORDS = 8,
    QUAGFEATHER_VALUE_WORDS = 19,
    QUAGFEATHER_REPLY_LENGTH = 24
};

/* The first word of a call. */
enum {
    QUAGFEATHER_POST = 1,
    QUAGFEATHER_PACKET = 2,
    QUAGFEATHER_CANCEL = 3,
    QUAGFEATHER_REPORT = 4
};

/* The first word of an answer. */
enum {
    QUAGFEATHER_REFUSED = 0,
    QUAGFEATHER_POSTED = 1,
    QUAGFEATHER_CANCELLED = 2,
    QUAGFEATHER_STORED = 3,
    QUAGFEATHER_GRANTED = 4,
    QUAGFEATHER_DONE = 5,
    QUAGFEATHER_TRUNCATED = 6,
    QUAGFEATHER_MISSING = 7
};

/* The type of a packet, word 0 of its values. */
enum {
    QUAGFEATHER_CTS = 3,
    QUAGFEATHER_CTSDATA = 4,
    QUAGFEATHER_EAGER_MSGRTM = 64,
    QUAGFEATHER_EAGER_TAGRTM = 65,
    QUAGFEATHER_MEDIUM_MSGRTM = 66,
    QUAGFEATHER_MEDIUM_TAGRTM = 67,
    QUAGFEATHER_LONGCTS_MSGRTM = 68,
    QUAGFEATHER_LONGCTS_TAGRTM = 69
};

/* The places of a packet's values. */
enum {
    QUAGFEATHER_TYPE = 0,
    QUAGFEATHER_MSG_ID = 1,
    QUAGFEATHER_RECV_ID = 2,
    QUAGFEATHER_SEND_ID = 3,
    QUAGFEATHER_MSG_LENGTH = 4,
    QUAGFEATHER_SEG_LENGTH = 5,
    QUAGFEATHER_RECV_LENGTH = 6,
    QUAGFEATHER_SEG_OFFSET = 7,
    QUAGFEATHER_CREDIT_REQUEST = 8,
    QUAGFEATHER_TAG = 9,
    QUAGFEATHER_HAS_RAW_ADDRESS = 10,
    QUAGFEATHER_RAW_ADDRESS_PLACE = 11,
    QUAGFEATHER_RAW_ADDRESS_LENGTH = 12,
    QUAGFEATHER_HAS_CQ_DATA = 13,
    QUAGFEATHER_CQ_DATA = 14,
    QUAGFEATHER_HAS_CONNID = 15,
    QUAGFEATHER_CONNID = 16,
    QUAGFEATHER_DATA_PLACE = 17,
    QUAGFEATHER_DATA_LENGTH = 18
};

/*
 * Writes a fresh state for n peers with areas of `area` bytes and packets of at most `limit` bytes,
 * and clears the map. The arena has n * area bytes, the map a bit for each. Answers 0, or 1 if a
 * number or a length is wrong.
 */
size_t quagfeather_set_up(size_t n, size_t area, size_t limit,
                          const uint8_t *arena, size_t arena_length,
                          uint64_t *map, size_t map_length,
                          uint64_t *state, size_t state_length);

/*
 * Runs calls of eight words each, whose packets stand in `bytes` and whose reply buffers in
 * `replies`, and writes eight words of answer for each. Ends before the first that is no call, and
 * answers how many it ran.
 */
size_t quagfeather_run(uint64_t *state, size_t state_length,
                       uint8_t *arena, size_t arena_length,
                       uint64_t *map, size_t map_length,
                       const uint64_t *calls, size_t calls_length,
                       const uint8_t *bytes, size_t bytes_length,
                       uint8_t *replies, size_t replies_length,
                       uint64_t *answers, size_t answers_length);

/* Reads a packet of at most 8,192 bytes into 19 values. Answers 0 or a refusal. */
size_t quagfeather_read(const uint8_t *packet, size_t packet_length,
                        uint64_t *values, size_t values_length);

/* Writes the packet of 19 values, and its length if it was not refused. Answers 0 or a refusal. */
size_t quagfeather_write(const uint64_t *values, size_t values_length,
                         const uint8_t *raw_address, size_t raw_address_length,
                         const uint8_t *data, size_t data_length,
                         uint8_t *out, size_t out_length,
                         size_t *length);

/* For measurements, on a map of one's own: the `count` bits from `at` on. A range or a map that is
 * too long is refused with 3.
 */

/* Answers 16 if one of them is set, and 0 if none is. */
size_t quagfeather_overlap_test(const uint64_t *map, size_t map_length, size_t at, size_t count);

/* Sets them, set already or not, and answers 0. */
size_t quagfeather_mark_untested(uint64_t *map, size_t map_length, size_t at, size_t count);

/* Sets them and answers 0, unless one is set (16). */
size_t quagfeather_mark(uint64_t *map, size_t map_length, size_t at, size_t count);

/* Replays a trace of at most `budget` entries into a text. Answers the text's length. */
size_t quagfeather_replay(const uint8_t *trace, size_t trace_length, size_t budget,
                          uint8_t *arena, size_t arena_length,
                          uint64_t *map, size_t map_length,
                          uint8_t *reply, size_t reply_length,
                          uint8_t *text, size_t text_length);

#ifdef __cplusplus
}
#endif

#endif
