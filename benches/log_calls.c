/* Rounds of fourteen calls of three interfaces: a put with its acknowledgement and a get with its reply, both delivered, a triggered put,
 * and what counting events, the region and the ready operations tell.
 *
 *     log_calls CALLS          makes so many calls, or a few less
 *     log_calls CALLS print    and prints them with what they answered, as the log of a device (docs/LOG.md)
 */
#include "sinfreddy.h"
#include <inttypes.h>
#include <stdio.h>
#include <stdlib.h>
#include <string.h>

enum { RANKS = 3, ROUND = 14, ROOM = 32, REGION = 48 };

static struct {
    ptl_handle_ni_t ni;
    ptl_handle_ct_t acknowledged, taken;
    ptl_handle_md_t md;
} side[RANKS];

static int prints;
static uint64_t sent;

#define SAY(...) (prints ? (void)printf(__VA_ARGS__) : (void)0)

static void must(uint32_t status) {
    if (status != SF_OK) {
        fprintf(stderr, "status %" PRIu32 "\n", status);
        exit(1);
    }
}

/* Carries a message to its target, and its answer, if there is one, home. */
static void carry(sf_message_t *message, uint8_t *bytes) {
    static const char *const outcomes[] = { "matched", "overflow", "answered", "dropped", "violation" };
    sf_message_t answer;
    uint8_t back[ROOM];
    uint32_t outcome, answered = 1;
    while (answered) {
        must(SfDeliver(&side[message->target].ni, message, bytes, message->bytes, &outcome, &answered, &answer, back, ROOM));
        SAY("%u deliver w%" PRIu64 " -> %s", message->target, sent - 1, outcomes[outcome]);
        if (answered) {
            SAY(" w%" PRIu64, sent);
            sent++;
            *message = answer;
            memcpy(bytes, back, ROOM);
        }
        SAY("\n");
    }
}

static void rounds(unsigned a, unsigned b, uint64_t i) {
    ptl_handle_ni_t *ni = &side[a].ni;
    sf_message_t message;
    ptl_ct_event_t count;
    uint8_t bytes[ROOM], held[8];
    uint32_t number, made;
    must(PtlPut(ni, side[a].md, i % 8, 16, PTL_CT_ACK_REQ, b, 0, 1, i % 5, 0, &message, bytes, ROOM));
    SAY("%u put d0 offset=%" PRIu64 " length=16 ack=ct target=%u bits=1 at=%" PRIu64 " -> w%" PRIu64 "\n", a, i % 8, b, i % 5, sent);
    sent++;
    carry(&message, bytes);
    must(PtlGet(ni, side[a].md, i % 8, 8, b, 0, 1, 0, &message, bytes, ROOM));
    SAY("%u get d0 offset=%" PRIu64 " length=8 target=%u bits=1 -> w%" PRIu64 "\n", a, i % 8, b, sent);
    sent++;
    carry(&message, bytes);
    must(PtlCTGet(ni, side[a].acknowledged, &count));
    SAY("%u ct_get c0 -> %" PRIu64 " %" PRIu64 "\n", a, count.success, count.failure);
    must(PtlCTGet(&side[b].ni, side[b].taken, &count));
    SAY("%u ct_get c1 -> %" PRIu64 " %" PRIu64 "\n", b, count.success, count.failure);
    must(PtlTriggeredPut(ni, side[a].md, 0, 8, PTL_NO_ACK_REQ, b, 0, 1, 0, 0, side[a].taken, 0, &number));
    SAY("%u triggered t%" PRIu64 " c1 0 put d0 length=8 target=%u bits=1 -> ok\n", a, i, b);
    must(SfReadyAt(ni, 0, &number));
    SAY("%u ready_at 0 -> t%" PRIu64 "\n", a, i);
    must(SfFire(ni, number, &made, &message, bytes, ROOM));
    SAY("%u fire t%" PRIu64 " -> w%" PRIu64 "\n", a, i, sent);
    sent++;
    carry(&message, bytes);
    must(SfRead(ni, 0, held, 8));
    SAY("%u read 0 8 -> %02x%02x%02x%02x%02x%02x%02x%02x\n", a, held[0], held[1], held[2], held[3], held[4], held[5], held[6], held[7]);
    must(SfReady(&side[b].ni, &number));
    SAY("%u ready_count -> %u\n", b, number);
}

static void open_one(unsigned r) {
    static const uint8_t region[REGION];
    ptl_ni_limits_t limits = { 6, 4, 5, 5, 3, 3, 6, ROOM, 16, 16 };
    ptl_handle_me_t entry;
    must(PtlNIInit(r, RANKS, &limits, region, REGION, &side[r].ni));
    SAY("%u open entries=6 unexpected=4 mds=5 cts=5 eqs=3 pts=3 triggered=6 msg=%d atomic=16 fetch=16 region=", r, ROOM);
    for (unsigned i = 0; i < REGION; i++) {
        SAY("00");
    }
    must(PtlPTAlloc(&side[r].ni, 0, PTL_EQ_NONE));
    must(PtlCTAlloc(&side[r].ni, &side[r].acknowledged));
    must(PtlCTAlloc(&side[r].ni, &side[r].taken));
    ptl_md_t md = { .length = 40, .options = PTL_MD_EVENT_CT_ACK, .eq_handle = PTL_EQ_NONE, .ct_handle = side[r].acknowledged };
    must(PtlMDBind(&side[r].ni, &md, &side[r].md));
    ptl_me_t me = { .length = 40, .ct_handle = side[r].taken, .match_id = PTL_RANK_ANY, .match_bits = 1,
                    .options = PTL_ME_OP_PUT | PTL_ME_OP_GET | PTL_ME_EVENT_CT_COMM };
    must(PtlMEAppend(&side[r].ni, 0, &me, PTL_PRIORITY_LIST, &entry));
    SAY(" -> ok\n%u pt_alloc 0 -> ok\n%u ct_alloc -> c0\n%u ct_alloc -> c1\n%u md_bind length=40 ct=c0 ack -> d0\n", r, r, r, r);
    SAY("%u me_append 0 priority length=40 bits=1 put get comm ct=c1 -> linked m0\n", r);
}

int main(int argc, char **argv) {
    uint64_t calls = argc > 1 ? strtoull(argv[1], NULL, 10) : 1000000;
    prints = argc > 2;
    SAY("ni 1\nranks %d\n", RANKS);
    for (unsigned r = 0; r < RANKS; r++) {
        open_one(r);
    }
    for (uint64_t i = 0; i < calls / ROUND; i++) {
        rounds(i % RANKS, (i + 1) % RANKS, i);
    }
    SAY("end\n");
    return 0;
}
