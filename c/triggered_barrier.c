/* A triggered dissemination barrier between four interfaces of sinfreddy.h, in one process; this program is the network.
 *
 * Each rank posts beforehand, with `r` its rank:
 *   ENTER  >= 1: put, match bits 0, to rank r+1      (counted there by ROUND1)
 *   ENTER  >= 1: ROUND1 += 1
 *   ROUND1 >= 2: put, match bits 1, to rank r+2      (counted there by LEAVE)
 *   ROUND1 >= 2: LEAVE += 1
 * and has left once LEAVE >= 2. ROUND1 >= 2 tells that r and r-1 entered, the message of bits 1 that r-2 and r-3 did.
 */
#include <stdbool.h>
#include <stdint.h>
#include <stdio.h>
#include <stdlib.h>
#include <string.h>

#include "sinfreddy.h"

enum { RANKS = 4, PT = 0, LEFT = 2, MSG = 8, DEPTH = 8, OPS = 4 };

/* Which barrier: the right one, or one with a fault put in, to see that the checks find it. */
enum fault { NONE, EARLY_ROUND1, NO_OWN_ENTER, LOST_POST, FAULTS };

struct rank {
    ptl_handle_ni_t ni;
    ptl_handle_ct_t enter, round1, leave;
    ptl_handle_md_t md;
    ptl_handle_me_t me[2];
};

struct packet {
    sf_message_t head;
    uint8_t bytes[MSG];
};

/* One first-in first-out line for each pair of ranks: only puts are sent, so no answers need a line of their own. */
struct line {
    struct packet packet[DEPTH];
    unsigned first, count;
};

struct net {
    struct rank rank[RANKS];
    struct line line[RANKS][RANKS];
    unsigned entered;          /* how many entered */
    bool early;                /* some rank had left before all had entered */
    unsigned fired, carried;
};

static void must(uint32_t status, const char *what, int line)
{
    if (status != SF_OK) {
        fprintf(stderr, "triggered_barrier.c:%d: %s: status %u\n", line, what, status);
        exit(1);
    }
}
#define MUST(call) must((call), #call, __LINE__)
#define CHECK(cond)                                                                \
    do {                                                                           \
        if (!(cond)) {                                                             \
            fprintf(stderr, "triggered_barrier.c:%d: not so: %s\n", __LINE__, #cond);        \
            exit(1);                                                               \
        }                                                                          \
    } while (0)

static uint64_t value(struct rank *k, ptl_handle_ct_t ct)
{
    ptl_ct_event_t e;
    MUST(PtlCTGet(&k->ni, ct, &e));
    CHECK(e.failure == 0);
    return e.success;
}

static unsigned left(struct net *n)
{
    unsigned count = 0;
    for (int r = 0; r < RANKS; r++)
        count += value(&n->rank[r], n->rank[r].leave) >= LEFT;
    return count;
}

/* After every step: nobody may have left while someone hasn't entered. */
static void look(struct net *n)
{
    if (n->entered < RANKS && left(n) > 0)
        n->early = true;
}

static void open_rank(struct net *n, uint32_t r, enum fault fault)
{
    static const ptl_ni_limits_t limits = {
        .max_entries = 2, .max_unexpected_headers = 1, .max_mds = 1, .max_cts = 3, .max_eqs = 1, .max_pt_index = 1,
        .max_triggered_ops = OPS, .max_msg_size = MSG, .max_atomic_size = MSG, .max_fetch_atomic_size = MSG,
    };
    static const uint8_t region[MSG] = { 0 };
    struct rank *k = &n->rank[r];
    const ptl_ct_event_t one = { 1, 0 };
    uint32_t number;

    MUST(PtlNIInit(r, RANKS, &limits, region, sizeof region, &k->ni));
    MUST(PtlCTAlloc(&k->ni, &k->enter));
    MUST(PtlCTAlloc(&k->ni, &k->round1));
    MUST(PtlCTAlloc(&k->ni, &k->leave));
    MUST(PtlPTAlloc(&k->ni, PT, PTL_EQ_NONE));
    for (uint32_t round = 0; round < 2; round++) {
        const ptl_me_t me = {
            .start = 0, .length = 0, .ct_handle = round == 0 ? k->round1 : k->leave,
            .options = PTL_ME_OP_PUT | PTL_ME_EVENT_CT_COMM,
            .match_id = (r + RANKS - (round + 1)) % RANKS, .match_bits = round, .ignore_bits = 0, .min_free = 0,
        };
        MUST(PtlMEAppend(&k->ni, PT, &me, PTL_PRIORITY_LIST, &k->me[round]));
    }
    const ptl_md_t md = { .start = 0, .length = 0, .options = 0, .eq_handle = PTL_EQ_NONE, .ct_handle = PTL_CT_NONE };
    MUST(PtlMDBind(&k->ni, &md, &k->md));

    MUST(PtlTriggeredPut(&k->ni, k->md, 0, 0, PTL_NO_ACK_REQ, (r + 1) % RANKS, PT, 0, 0, 0, k->enter, 1, &number));
    MUST(PtlTriggeredCTInc(&k->ni, k->round1, one, k->enter, 1, &number));
    if (!(fault == LOST_POST && r == 2))
        MUST(PtlTriggeredPut(&k->ni, k->md, 0, 0, PTL_NO_ACK_REQ, (r + 2) % RANKS, PT, 1, 0, 0, k->round1,
                             fault == EARLY_ROUND1 ? 1 : 2, &number));
    MUST(PtlTriggeredCTInc(&k->ni, k->leave, one, k->round1, fault == NO_OWN_ENTER ? 1 : 2, &number));
}

/* Gives everything back in order, so that nothing is seen to hang on. */
static void close_rank(struct rank *k, bool whole)
{
    if (whole) {
        uint64_t drops, violations;
        uint32_t cancelled;
        MUST(PtlNIStatus(&k->ni, PTL_SR_DROP_COUNT, &drops));
        MUST(PtlNIStatus(&k->ni, PTL_SR_PERMISSION_VIOLATIONS, &violations));
        CHECK(drops == 0 && violations == 0);
        MUST(PtlCTCancelTriggered(&k->ni, k->enter, &cancelled));
        CHECK(cancelled == 0);
        MUST(PtlCTCancelTriggered(&k->ni, k->round1, &cancelled));
        CHECK(cancelled == 0);
        MUST(PtlMEUnlink(&k->ni, k->me[0]));
        MUST(PtlMEUnlink(&k->ni, k->me[1]));
        MUST(PtlPTFree(&k->ni, PT));
        MUST(PtlMDRelease(&k->ni, k->md));
        MUST(PtlCTFree(&k->ni, k->enter));
        MUST(PtlCTFree(&k->ni, k->round1));
        MUST(PtlCTFree(&k->ni, k->leave));
    }
    MUST(PtlNIFini(&k->ni));
}

/* Fires the ready operation at position `i` of rank `r`, and puts its message in line. */
static void fire(struct net *n, uint32_t r, uint32_t i)
{
    struct packet p;
    uint32_t number, made;
    memset(&p, 0, sizeof p);
    MUST(SfReadyAt(&n->rank[r].ni, i, &number));
    MUST(SfFire(&n->rank[r].ni, number, &made, &p.head, p.bytes, sizeof p.bytes));
    n->fired++;
    if (made) {
        CHECK(p.head.kind == SF_PUT && p.head.source == r && p.head.target < RANKS && p.head.bytes == 0);
        struct line *l = &n->line[r][p.head.target];
        CHECK(l->count < DEPTH);
        l->packet[(l->first + l->count++) % DEPTH] = p;
    }
    look(n);
}

static void carry(struct net *n, uint32_t source, uint32_t target)
{
    struct line *l = &n->line[source][target];
    const struct packet *p = &l->packet[l->first];
    sf_message_t answer;
    uint8_t out[MSG];
    uint32_t outcome, answered;
    MUST(SfDeliver(&n->rank[target].ni, &p->head, p->bytes, (size_t)p->head.bytes, &outcome, &answered, &answer, out, sizeof out));
    CHECK(outcome == SF_MATCHED && answered == 0);
    l->first = (l->first + 1) % DEPTH;
    l->count--;
    n->carried++;
    look(n);
}

/* One step of the network among those possible, the `pick`-th modulo how many they are; false where there is none. */
static bool step(struct net *n, uint32_t pick)
{
    uint32_t total = 0, ready[RANKS];
    for (uint32_t r = 0; r < RANKS; r++) {
        MUST(SfReady(&n->rank[r].ni, &ready[r]));
        total += ready[r];
    }
    for (uint32_t s = 0; s < RANKS; s++)
        for (uint32_t t = 0; t < RANKS; t++)
            total += n->line[s][t].count > 0;
    if (total == 0)
        return false;
    pick %= total;
    for (uint32_t r = 0; r < RANKS; r++) {
        if (pick < ready[r]) {
            fire(n, r, pick);
            return true;
        }
        pick -= ready[r];
    }
    for (uint32_t s = 0; s < RANKS; s++)
        for (uint32_t t = 0; t < RANKS; t++)
            if (n->line[s][t].count > 0 && pick-- == 0) {
                carry(n, s, t);
                return true;
            }
    CHECK(!"a step was counted and not found");
    return false;
}

static uint32_t rnd(uint32_t *state) /* xorshift32 */
{
    uint32_t x = *state;
    x ^= x << 13;
    x ^= x >> 17;
    x ^= x << 5;
    return *state = x;
}

/* How the network goes between two enters: to its end, not at all, or some steps in any order by a seed. */
struct way {
    enum { TO_THE_END, NOT_AT_ALL, SOME } how;
    uint32_t seed;
};

struct result {
    bool early;
    unsigned left, fired, carried;
};

static struct result run(const int order[RANKS], struct way way, enum fault fault)
{
    static struct net n;
    uint32_t state = way.seed;
    const ptl_ct_event_t one = { 1, 0 };

    memset(&n, 0, sizeof n);
    for (uint32_t r = 0; r < RANKS; r++)
        n.rank[r].ni = (ptl_handle_ni_t)SF_NI_CLOSED;
    for (uint32_t r = 0; r < RANKS; r++)
        open_rank(&n, r, fault);
    CHECK(!step(&n, 0)); /* before any enter, nothing is ready */

    for (int i = 0; i < RANKS; i++) {
        struct rank *k = &n.rank[order[i]];
        if (way.how == TO_THE_END)
            while (step(&n, 0)) {}
        else if (way.how == SOME)
            for (uint32_t steps = rnd(&state) % 8; steps > 0 && step(&n, rnd(&state)); steps--) {}
        look(&n);
        MUST(PtlCTInc(&k->ni, k->enter, one));
        n.entered++;
        look(&n);
    }
    while (step(&n, way.how == SOME ? rnd(&state) : 0)) {}

    const struct result result = { n.early, left(&n), n.fired, n.carried };
    if (fault == NONE)
        for (int r = 0; r < RANKS; r++)
            CHECK(value(&n.rank[r], n.rank[r].leave) == LEFT);
    for (int r = 0; r < RANKS; r++)
        close_rank(&n.rank[r], fault == NONE);
    return result;
}

int main(void)
{
    enum { SEEDS = 40 };
    static const char *const name[FAULTS] = { "none", "round 1 sent at 1", "own increment of LEAVE at 1", "one post left out" };
    unsigned orders = 0, runs = 0, early[FAULTS] = { 0 }, stuck[FAULTS] = { 0 };

    for (int a = 0; a < RANKS; a++)
        for (int b = 0; b < RANKS; b++)
            for (int c = 0; c < RANKS; c++) {
                const int d = 6 - a - b - c;
                if (a == b || a == c || b == c)
                    continue;
                const int order[RANKS] = { a, b, c, d };
                unsigned bad = 0;
                orders++;
                for (int f = 0; f < FAULTS; f++)
                    for (uint32_t w = 0; w < 2 + SEEDS; w++) {
                        const struct way way = { w == 0 ? TO_THE_END : w == 1 ? NOT_AT_ALL : SOME, w * 2654435761u + orders };
                        const struct result x = run(order, way, (enum fault)f);
                        early[f] += x.early;
                        stuck[f] += x.left != RANKS;
                        if (f == NONE) {
                            runs++;
                            CHECK(x.fired == OPS * RANKS && x.carried == 2 * RANKS);
                            bad += x.early || x.left != RANKS;
                        }
                    }
                printf("order %d %d %d %d: %s\n", a, b, c, d, bad == 0 ? "nobody left early, all left" : "WRONG");
            }
    for (int f = 0; f < FAULTS; f++)
        printf("fault (%s): %u of %u runs with an early leave, %u where not all left\n", name[f], early[f], runs, stuck[f]);
    const bool good = orders == 24 && early[NONE] == 0 && stuck[NONE] == 0 && early[EARLY_ROUND1] > 0 && early[NO_OWN_ENTER] > 0
                      && stuck[LOST_POST] == runs;
    printf("%u orders, %u runs of the barrier: %s\n", orders, runs, good ? "good" : "BAD");
    return good ? 0 : 1;
}
