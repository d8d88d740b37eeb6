/*
 * A message layer that receives two messages of one peer: a medium one, whose last segment comes first
 * and twice, and a long one, for which it sends the CTS that the engine writes. The packets stand here
 * as they come off the wire. rust/embed is the same in Rust.
 */
#include <inttypes.h>
#include <stdio.h>

#include "quagfeather.h"

enum { PEERS = 2, AREA = 256, LIMIT = 96, PEER = 1 };

/* What the layer lends at every run, and keeps from one to the next. */
static uint8_t arena[PEERS * AREA];
static uint64_t map[PEERS * AREA / 64];
static uint64_t state[QUAGFEATHER_STATE_WORDS];

/* Type, version, flags; id; length; offset; data. */
static const char last_segment[] =
    "\x42\x04\x04\0" "\0\0\0\0" "\x1f\0\0\0\0\0\0\0" "\x14\0\0\0\0\0\0\0" " any order.";
static const char first_segment[] =
    "\x42\x04\x04\0" "\0\0\0\0" "\x1f\0\0\0\0\0\0\0" "\0\0\0\0\0\0\0\0" "Segments may come in";
/* Type, version, flags; id; length; send_id, credit request; data. */
static const char request[] =
    "\x44\x04\x04\0" "\x01\0\0\0" "\x36\0\0\0\0\0\0\0" "\x07\0\0\0" "\x01\0\0\0" "A long one begins, and";
/* Type, version, flags; recv_id; length and offset of the segment; data. */
static const char rest[] =
    "\x04\x04\0\0" "\x01\0\0\0" "\x20\0\0\0\0\0\0\0" "\x16\0\0\0\0\0\0\0" " goes on when it is granted more";

/* Says what was answered. A layer would send the reply; this one says which send it is for. */
static void show(const uint64_t *answer, const uint8_t *reply)
{
    switch (answer[0]) {
    case QUAGFEATHER_REFUSED:
        printf("refused %" PRIu64 "\n", answer[1]);
        break;
    case QUAGFEATHER_POSTED:
        printf("posted in slot %" PRIu64 "\n", answer[1]);
        break;
    case QUAGFEATHER_STORED:
        printf("stored\n");
        break;
    case QUAGFEATHER_GRANTED:
        printf("granted %" PRIu64 ", CTS for send %d\n", answer[1], reply[8]);
        break;
    case QUAGFEATHER_DONE:
        printf("done: %.*s\n", (int)answer[3], (const char *)arena + PEER * AREA);
        break;
    case QUAGFEATHER_MISSING:
        printf("%" PRIu64 " in, first missing %" PRIu64 "\n", answer[1], answer[2]);
        break;
    }
}

/* Makes one call. A layer that has several at hand lends them together. */
static void make(const uint64_t *call, const char *packet, size_t length)
{
    uint8_t reply[QUAGFEATHER_REPLY_LENGTH];
    uint64_t answer[QUAGFEATHER_ANSWER_WORDS];

    if (quagfeather_run(state, QUAGFEATHER_STATE_WORDS, arena, sizeof arena, map, PEERS * AREA / 64,
                        call, QUAGFEATHER_CALL_WORDS, (const uint8_t *)packet, length,
                        reply, sizeof reply, answer, QUAGFEATHER_ANSWER_WORDS) == 1)
        show(answer, reply);
    else
        printf("no call\n");
}

/* A plain receive at the start of the peer's area. */
static void post(uint64_t capacity)
{
    uint64_t call[QUAGFEATHER_CALL_WORDS] = { QUAGFEATHER_POST, PEER, 0, 0, 0, 0, capacity };

    make(call, "", 0);
}

static void feed(const char *packet, size_t length)
{
    uint64_t call[QUAGFEATHER_CALL_WORDS] = { QUAGFEATHER_PACKET, PEER, 0, length,
                                              0, QUAGFEATHER_REPLY_LENGTH };

    make(call, packet, length);
}

static void report(uint64_t slot)
{
    uint64_t call[QUAGFEATHER_CALL_WORDS] = { QUAGFEATHER_REPORT, PEER, slot };

    make(call, "", 0);
}

int main(void)
{
    printf("set-up %zu\n",
           quagfeather_set_up(PEERS, AREA, LIMIT, arena, sizeof arena, map, PEERS * AREA / 64,
                              state, QUAGFEATHER_STATE_WORDS));
    post(31);
    feed(last_segment, sizeof last_segment - 1);
    feed(last_segment, sizeof last_segment - 1);
    report(0);
    feed(first_segment, sizeof first_segment - 1);

    post(54);
    feed(request, sizeof request - 1);
    feed(rest, sizeof rest - 1);

    state[4] = 3; /* a phase that no slot has: a state that can't be */
    report(0);
    return 0;
}
