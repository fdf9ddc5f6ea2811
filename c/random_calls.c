/* Random calls of three interfaces, with what they answered, as the log of a device (docs/LOG.md):
 *
 *     random_calls [SEED [CALLS]]
 *
 * `c/random_calls PORTALS_LOG SCRIPTS [FOLDER]` has `portals_log judge` say of each such log whether the interface of the crates would have
 * answered so. */
#include "sinfreddy.h"
#include <inttypes.h>
#include <stdio.h>
#include <stdlib.h>
#include <string.h>

enum { RANKS = 3, ROOM = 32, REGION = 48, KEPT = 512, FLYING = 256 };
enum { CT, EQ, MD, ME, KINDS };

/* What each interface gave, live or not, oldest first; a thing's name is its kind's letter and its place here. */
static struct {
    ptl_handle_ni_t ni;
    ptl_handle_any_t given[KINDS][KEPT];
    unsigned count[KINDS];
    uint32_t numbers[KEPT]; /* of triggered operations, by name */
    unsigned posted;
} rank_of[RANKS];

static struct flying {
    sf_message_t head;
    uint8_t bytes[ROOM];
    unsigned name;
} flying[FLYING];
static unsigned flies, sent;

static uint64_t state;

static uint32_t below(uint32_t n) {
    state = state * 6364136223846793005u + 1442695040888963407u;
    return (uint32_t)((state >> 33) % n);
}

static const char *refusal(uint32_t status) {
    static const char *const faults[] = { "ok", "Stale", "NoSpace", "OutOfRegion", "InUse", "CountFull", "NoMemory" };
    static const char *const rules[] = { "UnknownRank", "UnfitLimits", "TooLong", "PartialElement", "HalvesDiffer", "AsksAcknowledgement",
                                         "NoRoom", "OutsideRegion", "Elsewhere", "NotReady" };
    if (status < 7) {
        return faults[status];
    }
    if (status >= 16 && status < 26) {
        return rules[status - 16];
    }
    fprintf(stderr, "status %" PRIu32 "\n", status);
    exit(1);
}

static void hex(const uint8_t *bytes, uint64_t n) {
    if (n == 0) {
        putchar('-');
    }
    for (uint64_t i = 0; i < n; i++) {
        printf("%02x", bytes[i]);
    }
}

/* The place of one of a rank's things of a kind, any of the last eight, or KEPT: none was ever given. */
static unsigned some(unsigned r, int kind) {
    unsigned n = rank_of[r].count[kind];
    if (n == 0) {
        return KEPT;
    }
    return n - 1 - below(n < 8 ? n : 8);
}

static ptl_handle_any_t handle(unsigned r, int kind, unsigned place) {
    return place == KEPT ? PTL_INVALID_HANDLE : rank_of[r].given[kind][place];
}

static void answer_made(unsigned r, int kind, ptl_handle_any_t made, uint32_t status, const char *word) {
    if (status != SF_OK) {
        printf(" -> %s\n", refusal(status));
        return;
    }
    unsigned place = rank_of[r].count[kind]++;
    rank_of[r].given[kind][place] = made;
    printf(" -> %s%c%u\n", word, "cqdm"[kind], place);
}

/* The name of a descriptor, by its handle. */
static void print_home(unsigned r, ptl_handle_any_t home) {
    for (unsigned i = 0; r < RANKS && i < rank_of[r].count[MD]; i++) {
        if (rank_of[r].given[MD][i].stamp == home.stamp && rank_of[r].given[MD][i].slot == home.slot) {
            printf(" home=d%u", i);
            return;
        }
    }
    printf(" home=-");
}

static const char *const operations[] = { "min", "max", "sum", "prod", "lor", "land", "bor", "band", "lxor", "bxor" };
static const char *const swaps[] = { "swap", "cswap", "mswap" };
static const char *const types[] = { "u8", "i8", "u16", "i16", "u32", "i32", "u64", "i64" };
static const char *const acks[] = { "none", "ct", "full" };

/* Whether a message is the same once it was bytes. */
static void encodes(const sf_message_t *m, const uint8_t *bytes) {
    uint8_t frame[SF_FRAME_HEADER + ROOM], again[SF_FRAME_HEADER + ROOM], read[ROOM];
    sf_message_t head;
    uint64_t n, k;
    if (SfEncode(m, bytes, m->bytes, frame, sizeof frame, &n) != SF_OK || n != SF_FRAME_HEADER + m->bytes
        || SfDecode(frame, n, &head, read, ROOM) != SF_OK || SfEncode(&head, read, head.bytes, again, sizeof again, &k) != SF_OK || k != n
        || memcmp(frame, again, n) != 0 || memcmp(read, bytes, m->bytes) != 0 || SfDecode(frame, n - 1, &head, read, ROOM) != SF_MALFORMED
        || SfEncode(m, bytes, m->bytes, again, n - 1, &k) != SF_SHORT) {
        fprintf(stderr, "a message isn't the same once it was bytes\n");
        exit(1);
    }
}

/* A message is under way: it gets a name, and all of it is told. */
static void fly(const sf_message_t *m, const uint8_t *bytes) {
    static const char *const kinds[] = { "put", "get", "atomic", "fetch_atomic", "swap", "ack", "reply" };
    if (flies == FLYING) {
        exit(0);
    }
    encodes(m, bytes);
    flying[flies].head = *m;
    memcpy(flying[flies].bytes, bytes, m->bytes);
    flying[flies].name = sent;
    printf("message w%u kind=%s source=%u target=%u pt=%u bits=%" PRIu64 " offset=%" PRIu64 " length=%" PRIu64 " data=%" PRIu64, sent,
           kinds[m->kind], m->source, m->target, m->pt_index, m->match_bits, m->offset, m->length, m->hdr_data);
    printf(" op=%s swap=%s type=%s operand=%" PRIu64 " ack=%s home_offset=%" PRIu64 " ok=%u",
           m->operation ? operations[m->operation - 1] : "-", m->swap ? swaps[m->swap - 1] : "-", types[m->datatype], m->operand,
           acks[m->ack_req], m->home_offset, m->ok);
    print_home(m->kind < SF_ACK ? m->source : m->target, m->home);
    printf(" bytes=");
    hex(bytes, m->bytes);
    putchar('\n');
    flies++;
    sent++;
}

/* A field that names one of a rank's things, or nothing. */
static ptl_handle_any_t field(unsigned r, int kind, const char *key, char *text) {
    unsigned place = below(3) ? some(r, kind) : KEPT;
    text[0] = 0;
    if (place != KEPT) {
        sprintf(text, " %s=%c%u", key, "cqdm"[kind], place);
    }
    return handle(r, kind, place);
}

/* The arguments of a start, its words printed; of a fetching one the other half too. */
struct start {
    unsigned kind; /* SF_PUT .. SF_SWAP */
    ptl_handle_md_t md, back;
    uint64_t offset, length, bits, at, data, back_offset, operand;
    uint32_t target, pt, ack, op, type;
};

static struct start any_start(unsigned r) {
    static const unsigned sizes[] = { 1, 1, 2, 2, 4, 4, 8, 8 };
    static const char *const calls[] = { "put", "get", "atomic", "fetch_atomic", "swap" };
    struct start s = { .kind = below(5), .offset = below(6), .length = below(10), .bits = below(3), .at = below(6), .target = below(RANKS),
                       .pt = below(3), .type = below(8) };
    unsigned d = some(r, MD), b = some(r, MD);
    if (below(40) == 0) {
        s.target = RANKS;
    }
    if (s.kind >= SF_ATOMIC && below(8)) {
        s.length = s.kind == SF_SWAP ? sizes[s.type] : s.length / sizes[s.type] * sizes[s.type];
    }
    if (below(60) == 0) {
        s.length = ROOM + 1;
    }
    s.md = handle(r, MD, d);
    s.back = handle(r, MD, b);
    printf("%s", calls[s.kind]);
    if (s.kind == SF_SWAP) {
        s.op = below(3);
        printf(" %s %s", swaps[s.op], types[s.type]);
    } else if (s.kind >= SF_ATOMIC) {
        s.op = below(10);
        printf(" %s %s", operations[s.op], types[s.type]);
    }
    printf(" d%u offset=%" PRIu64 " length=%" PRIu64 " target=%u pt=%u bits=%" PRIu64 " at=%" PRIu64, d == KEPT ? 999 : d, s.offset,
           s.length, s.target, s.pt, s.bits, s.at);
    if (s.kind == SF_PUT || s.kind == SF_ATOMIC) {
        s.ack = below(3);
        printf(" ack=%s", acks[s.ack]);
    }
    if (s.kind != SF_GET) {
        s.data = below(100);
        printf(" data=%" PRIu64, s.data);
    }
    if (s.kind >= SF_FETCH_ATOMIC) {
        s.back_offset = below(8);
        if (b != KEPT) {
            printf(" back=d%u", b);
        }
        printf(" back_offset=%" PRIu64, s.back_offset);
    }
    if (s.kind == SF_SWAP) {
        s.operand = below(300);
        printf(" operand=%" PRIu64, s.operand);
    }
    return s;
}

static void start(unsigned r) {
    ptl_handle_ni_t *ni = &rank_of[r].ni;
    sf_message_t m;
    uint8_t out[ROOM];
    uint32_t status = 0;
    printf("%u ", r);
    struct start s = any_start(r);
    switch (s.kind) {
    case SF_PUT:
        status = PtlPut(ni, s.md, s.offset, s.length, s.ack, s.target, s.pt, s.bits, s.at, s.data, &m, out, ROOM);
        break;
    case SF_GET:
        status = PtlGet(ni, s.md, s.offset, s.length, s.target, s.pt, s.bits, s.at, &m, out, ROOM);
        break;
    case SF_ATOMIC:
        status = PtlAtomic(ni, s.md, s.offset, s.length, s.ack, s.target, s.pt, s.bits, s.at, s.data, s.op, s.type, &m, out, ROOM);
        break;
    case SF_FETCH_ATOMIC:
        status = PtlFetchAtomic(ni, s.back, s.back_offset, s.md, s.offset, s.length, s.target, s.pt, s.bits, s.at, s.data, s.op, s.type, &m,
                                out, ROOM);
        break;
    default:
        status = PtlSwap(ni, s.back, s.back_offset, s.md, s.offset, s.length, s.target, s.pt, s.bits, s.at, s.data, s.operand, s.op, s.type,
                         &m, out, ROOM);
    }
    if (status != SF_OK) {
        printf(" -> %s\n", refusal(status));
        return;
    }
    printf(" -> w%u\n", sent);
    fly(&m, out);
}

static void post(unsigned r) {
    ptl_handle_ni_t *ni = &rank_of[r].ni;
    unsigned c = some(r, CT), t = rank_of[r].posted, c2;
    uint64_t threshold = below(4);
    uint32_t number = 0, status;
    ptl_handle_ct_t ct = handle(r, CT, c);
    if (c == KEPT || t == KEPT) {
        printf("%u drops", r);
        uint64_t drops;
        PtlNIStatus(ni, PTL_SR_DROP_COUNT, &drops);
        printf(" -> %" PRIu64 "\n", drops);
        return;
    }
    printf("%u triggered t%u c%u %" PRIu64 " ", r, t, c, threshold);
    if (below(3) == 0) {
        ptl_ct_event_t by = { below(3), below(2) };
        bool sets = below(2);
        c2 = some(r, CT);
        printf("%s c%u %" PRIu64 " %" PRIu64, sets ? "set" : "inc", c2, by.success, by.failure);
        status = sets ? PtlTriggeredCTSet(ni, handle(r, CT, c2), by, ct, threshold, &number)
                      : PtlTriggeredCTInc(ni, handle(r, CT, c2), by, ct, threshold, &number);
    } else {
        struct start s = any_start(r);
        switch (s.kind) {
        case SF_PUT:
            status = PtlTriggeredPut(ni, s.md, s.offset, s.length, s.ack, s.target, s.pt, s.bits, s.at, s.data, ct, threshold, &number);
            break;
        case SF_GET:
            status = PtlTriggeredGet(ni, s.md, s.offset, s.length, s.target, s.pt, s.bits, s.at, ct, threshold, &number);
            break;
        case SF_ATOMIC:
            status = PtlTriggeredAtomic(ni, s.md, s.offset, s.length, s.ack, s.target, s.pt, s.bits, s.at, s.data, s.op, s.type, ct,
                                        threshold, &number);
            break;
        case SF_FETCH_ATOMIC:
            status = PtlTriggeredFetchAtomic(ni, s.back, s.back_offset, s.md, s.offset, s.length, s.target, s.pt, s.bits, s.at, s.data,
                                             s.op, s.type, ct, threshold, &number);
            break;
        default:
            status = PtlTriggeredSwap(ni, s.back, s.back_offset, s.md, s.offset, s.length, s.target, s.pt, s.bits, s.at, s.data, s.operand,
                                      s.op, s.type, ct, threshold, &number);
        }
    }
    printf(" -> %s\n", refusal(status));
    if (status == SF_OK) {
        rank_of[r].numbers[rank_of[r].posted++] = number;
    }
}

static void fire(unsigned r) {
    ptl_handle_ni_t *ni = &rank_of[r].ni;
    sf_message_t m;
    uint8_t out[ROOM];
    uint32_t ready, number, made, place, t = 0;
    SfReady(ni, &ready);
    printf("%u ready_count -> %u\n", r, ready);
    if (ready == 0) {
        return;
    }
    place = below(ready);
    SfReadyAt(ni, place, &number);
    while (rank_of[r].numbers[t] != number) {
        t++;
    }
    printf("%u ready_at %u -> t%u\n", r, place, t);
    if (SfFire(ni, number, &made, &m, out, ROOM) != SF_OK) {
        exit(1);
    }
    if (!made) {
        printf("%u fire t%u -> none\n", r, t);
        return;
    }
    printf("%u fire t%u -> w%u\n", r, t, sent);
    fly(&m, out);
}

static void deliver(void) {
    static const char *const outcomes[] = { "matched", "overflow", "answered", "dropped", "violation" };
    struct flying f;
    sf_message_t answer;
    uint8_t out[ROOM];
    uint32_t outcome, answered, status;
    unsigned i;
    if (flies == 0) {
        return;
    }
    i = below(flies);
    for (unsigned k = 0; k < i; k++) { /* the oldest of its lane */
        if (flying[k].head.source == flying[i].head.source && flying[k].head.target == flying[i].head.target
            && (flying[k].head.kind < SF_ACK) == (flying[i].head.kind < SF_ACK)) {
            i = k;
        }
    }
    f = flying[i];
    if (below(30) == 0) {
        unsigned other = (f.head.target + 1) % RANKS;
        status = SfDeliver(&rank_of[other].ni, &f.head, f.bytes, f.head.bytes, &outcome, &answered, &answer, out, ROOM);
        printf("%u deliver w%u -> %s\n", other, f.name, refusal(status));
        return;
    }
    memmove(flying + i, flying + i + 1, (--flies - i) * sizeof f);
    status = SfDeliver(&rank_of[f.head.target].ni, &f.head, f.bytes, f.head.bytes, &outcome, &answered, &answer, out, ROOM);
    if (status != SF_OK) {
        printf("%u deliver w%u -> %s\n", f.head.target, f.name, refusal(status));
    } else if (answered) {
        printf("%u deliver w%u -> %s w%u\n", f.head.target, f.name, outcomes[outcome], sent);
        fly(&answer, out);
    } else {
        printf("%u deliver w%u -> %s\n", f.head.target, f.name, outcomes[outcome]);
    }
}

static void counting(unsigned r) {
    ptl_handle_ni_t *ni = &rank_of[r].ni;
    ptl_handle_any_t made = PTL_INVALID_HANDLE;
    ptl_ct_event_t count = { below(3), below(2) }, event;
    unsigned c = some(r, CT);
    uint32_t n, status;
    if (c == KEPT || below(4) == 0) {
        status = PtlCTAlloc(ni, &made);
        printf("%u ct_alloc", r);
        answer_made(r, CT, made, status, "");
        return;
    }
    switch (below(7)) {
    case 0:
        printf("%u ct_free c%u -> %s\n", r, c, refusal(PtlCTFree(ni, handle(r, CT, c))));
        return;
    case 1:
        status = PtlCTCancelTriggered(ni, handle(r, CT, c), &n);
        printf("%u ct_cancel c%u -> ", r, c);
        if (status == SF_OK) {
            printf("%u\n", n);
        } else {
            printf("%s\n", refusal(status));
        }
        return;
    case 2:
        printf("%u ct_set c%u %" PRIu64 " %" PRIu64 " -> %s\n", r, c, count.success, count.failure,
               refusal(PtlCTSet(ni, handle(r, CT, c), count)));
        return;
    case 3:
    case 4:
        printf("%u ct_inc c%u %" PRIu64 " %" PRIu64 " -> %s\n", r, c, count.success, count.failure,
               refusal(PtlCTInc(ni, handle(r, CT, c), count)));
        return;
    default:
        status = PtlCTGet(ni, handle(r, CT, c), &event);
        printf("%u ct_get c%u -> ", r, c);
        if (status == SF_OK) {
            printf("%" PRIu64 " %" PRIu64 "\n", event.success, event.failure);
        } else {
            printf("%s\n", refusal(status));
        }
    }
}

static void queues(unsigned r) {
    static const char *const kinds[] = { "put", "put_overflow", "get", "atomic", "atomic_overflow", "fetch_atomic", "reply", "send", "ack",
                                         "link", "auto_unlink", "auto_free", "search" };
    ptl_handle_ni_t *ni = &rank_of[r].ni;
    ptl_handle_any_t made = PTL_INVALID_HANDLE;
    ptl_event_t e;
    unsigned q = some(r, EQ);
    uint32_t got, status, room = below(20) ? 1 + below(6) : 0;
    if (q == KEPT || below(6) == 0) {
        status = PtlEQAlloc(ni, room, &made);
        printf("%u eq_alloc %u", r, room);
        answer_made(r, EQ, made, status, "");
        return;
    }
    if (below(12) == 0) {
        printf("%u eq_free q%u -> %s\n", r, q, refusal(PtlEQFree(ni, handle(r, EQ, q))));
        return;
    }
    status = PtlEQGet(ni, handle(r, EQ, q), &e, &got);
    printf("%u eq_get q%u -> ", r, q);
    if (status != SF_OK) {
        printf("%s\n", refusal(status));
    } else if (got != SF_EQ_GOT) {
        printf("%s\n", got == SF_EQ_EMPTY ? "empty" : "dropped");
    } else {
        printf("%s source=%u pt=%u bits=%" PRIu64 " data=%" PRIu64 " requested=%" PRIu64 " delivered=%" PRIu64 " place=%" PRIu64 " ok=%u\n",
               kinds[e.type], e.initiator, e.pt_index, e.match_bits, e.hdr_data, e.rlength, e.mlength, e.start, e.ok);
    }
}

static void entries(unsigned r) {
    static const char *const flags[] = { "put", "get", "once", "local", "no_truncate", "comm", "overflow",
                                         "hide_link", "hide_unlink", "hide_comm", "hide_overflow", "hide_success" };
    ptl_handle_ni_t *ni = &rank_of[r].ni;
    ptl_handle_any_t made = PTL_INVALID_HANDLE;
    char ct[24], text[400];
    ptl_me_t me = { .start = below(24), .length = below(26), .match_bits = below(3), .ignore_bits = below(3) ? 0 : 3,
                    .match_id = below(3) ? PTL_RANK_ANY : below(RANKS), .min_free = below(4) };
    uint32_t pt = below(3), found, status, list = below(3) == 0;
    unsigned m = some(r, ME);
    if (m != KEPT && below(4) == 0) {
        printf("%u me_unlink m%u -> %s\n", r, m, refusal(PtlMEUnlink(ni, handle(r, ME, m))));
        return;
    }
    me.options = (below(5) ? PTL_ME_OP_PUT : 0) | (below(3) ? PTL_ME_OP_GET : 0) | (below(2) ? PTL_ME_USE_ONCE : 0)
                 | (below(3) ? 0 : PTL_ME_MANAGE_LOCAL) | (below(4) ? 0 : PTL_ME_NO_TRUNCATE) | (below(2) ? PTL_ME_EVENT_CT_COMM : 0)
                 | (below(3) ? 0 : PTL_ME_EVENT_CT_OVERFLOW) | (below(4) ? 0 : PTL_ME_EVENT_LINK_DISABLE)
                 | (below(4) ? 0 : PTL_ME_EVENT_UNLINK_DISABLE) | (below(4) ? 0 : PTL_ME_EVENT_COMM_DISABLE)
                 | (below(4) ? 0 : PTL_ME_EVENT_OVER_DISABLE) | (below(6) ? 0 : PTL_ME_EVENT_SUCCESS_DISABLE);
    me.ct_handle = field(r, CT, "ct", ct);
    int n = sprintf(text, "start=%" PRIu64 " length=%" PRIu64 " bits=%" PRIu64 " ignore=%" PRIu64 " min_free=%" PRIu64 "%s", me.start,
                    me.length, me.match_bits, me.ignore_bits, me.min_free, ct);
    if (me.match_id != PTL_RANK_ANY) {
        n += sprintf(text + n, " source=%u", me.match_id);
    }
    for (unsigned i = 0; i < 12; i++) {
        if (me.options >> i & 1) {
            n += sprintf(text + n, " %s", flags[i]);
        }
    }
    if (below(4) == 0) {
        bool deletes = below(2);
        status = PtlMESearch(ni, pt, &me, deletes, &found);
        printf("%u me_search %u %s %s -> %s\n", r, pt, deletes ? "delete" : "keep", text,
               status != SF_OK ? refusal(status) : found ? "found" : "none");
        return;
    }
    status = PtlMEAppend(ni, pt, &me, list ? PTL_OVERFLOW_LIST : PTL_PRIORITY_LIST, &made);
    printf("%u me_append %u %s %s", r, pt, list ? "overflow" : "priority", text);
    if (status == SF_OK && made.slot == UINT32_MAX) {
        printf(" -> taken\n");
    } else {
        answer_made(r, ME, made, status, "linked ");
    }
}

static void descriptors(unsigned r) {
    ptl_handle_ni_t *ni = &rank_of[r].ni;
    ptl_handle_any_t made = PTL_INVALID_HANDLE;
    char ct[24], eq[24];
    ptl_md_t md = { .start = below(24), .length = below(30), .options = below(8) | (below(3) ? 0 : 8) | (below(4) ? 0 : 16) };
    unsigned d = some(r, MD);
    uint64_t answers;
    uint32_t status;
    if (d != KEPT && below(3) == 0) {
        printf("%u md_release d%u -> %s\n", r, d, refusal(PtlMDRelease(ni, handle(r, MD, d))));
        return;
    }
    if (d != KEPT && below(3) == 0) {
        status = SfAwaits(ni, handle(r, MD, d), &answers);
        printf("%u awaits d%u -> ", r, d);
        if (status == SF_OK) {
            printf("%" PRIu64 "\n", answers);
        } else {
            printf("%s\n", refusal(status));
        }
        return;
    }
    md.eq_handle = field(r, EQ, "eq", eq);
    md.ct_handle = field(r, CT, "ct", ct);
    status = PtlMDBind(ni, &md, &made);
    printf("%u md_bind start=%" PRIu64 " length=%" PRIu64 "%s%s%s%s%s%s%s", r, md.start, md.length, eq, ct,
           md.options & 1 ? " send" : "", md.options & 2 ? " reply" : "", md.options & 4 ? " ack" : "",
           md.options & 8 ? " hide_send" : "", md.options & 16 ? " hide_success" : "");
    answer_made(r, MD, made, status, "");
}

static void indices(unsigned r) {
    ptl_handle_ni_t *ni = &rank_of[r].ni;
    uint32_t pt = below(4);
    char eq[24];
    if (below(4) == 0) {
        printf("%u pt_free %u -> %s\n", r, pt, refusal(PtlPTFree(ni, pt)));
        return;
    }
    ptl_handle_eq_t queue = field(r, EQ, "eq", eq);
    printf("%u pt_alloc %u%s -> %s\n", r, pt, eq, refusal(PtlPTAlloc(ni, pt, queue)));
}

static void host(unsigned r) {
    ptl_handle_ni_t *ni = &rank_of[r].ni;
    uint8_t bytes[8];
    uint64_t at = below(REGION + 2), n = below(8), value;
    uint32_t status;
    if (below(4) == 0) {
        uint32_t number = below(2);
        PtlNIStatus(ni, number, &value);
        printf("%u %s -> %" PRIu64 "\n", r, number ? "violations" : "drops", value);
    } else if (below(2)) {
        for (unsigned i = 0; i < 8; i++) {
            bytes[i] = (uint8_t)below(256);
        }
        printf("%u write %" PRIu64 " ", r, at);
        hex(bytes, n);
        printf(" -> %s\n", refusal(SfWrite(ni, at, bytes, n)));
    } else {
        status = SfRead(ni, at, bytes, n);
        printf("%u read %" PRIu64 " %" PRIu64 " -> ", r, at, n);
        if (status == SF_OK) {
            hex(bytes, n);
            putchar('\n');
        } else {
            printf("%s\n", refusal(status));
        }
    }
}

static void open_all(void) {
    uint8_t region[REGION];
    for (unsigned r = 0; r < RANKS; r++) {
        ptl_ni_limits_t limits = { 6, 4, 5, 5, 3, 3, 6, ROOM, 16, 16 };
        for (unsigned i = 0; i < REGION; i++) {
            region[i] = (uint8_t)below(256);
        }
        printf("%u open entries=6 unexpected=4 mds=5 cts=5 eqs=3 pts=3 triggered=6 msg=%d atomic=16 fetch=16 region=", r, ROOM);
        hex(region, REGION);
        printf(" -> %s\n", refusal(PtlNIInit(r, RANKS, &limits, region, REGION, &rank_of[r].ni)));
    }
}

int main(int argc, char **argv) {
    unsigned long calls = argc > 2 ? strtoul(argv[2], NULL, 10) : 200;
    state = (argc > 1 ? strtoull(argv[1], NULL, 10) : 1) * 2654435761u + 99;
    printf("ni 1\nranks %d\n", RANKS);
    open_all();
    for (unsigned long i = 0; i < calls && sent < KEPT; i++) {
        unsigned r = below(RANKS);
        switch (below(16)) {
        case 0: indices(r); break;
        case 1: case 2: counting(r); break;
        case 3: case 4: queues(r); break;
        case 5: case 6: case 7: entries(r); break;
        case 8: descriptors(r); break;
        case 9: case 10: start(r); break;
        case 11: post(r); break;
        case 12: fire(r); break;
        case 13: case 14: deliver(); break;
        default: host(r);
        }
    }
    printf("end\n");
    for (unsigned r = 0; r < RANKS; r++) {
        if (PtlNIFini(&rank_of[r].ni) != SF_OK) {
            return 1;
        }
    }
    return 0;
}
