/* sinfreddy.h: one network interface of the profile, for C.
 *
 * The interface behaves as docs/PROFILE.md says, rule by rule: a profile of The Portals 4.3 Network Programming Interface. Calls have
 * the standard's names and the order of its arguments where the profile has the call. They differ in this:
 *
 *   - Every call names the interface first, by a pointer to its handle, since one process may hold several.
 *   - Memory is the library's. An interface has one region of bytes, copied in when it is opened; `start` of a descriptor or an entry
 *     is an offset in that region, in bytes. SfWrite and SfRead are the host's way to it.
 *   - There is no network. A call that starts an operation hands its message to the caller, who carries it to the interface of the
 *     rank `target` and gives it to SfDeliver there. An answer (an acknowledgement or a reply) comes out of that call, for the rank
 *     `target` that it names. Messages from one rank to another must arrive in the order in which they came out: requests among
 *     themselves and answers among themselves. A rank may send to itself.
 *   - Nothing runs by itself. A triggered operation that is ready waits until SfFire fires it.
 *   - There are no callbacks, no threads, and no user_ptr.
 *
 * BUILDING. `c/build` makes libsinfreddy.a: gcc -I FOLDER program.c -L FOLDER -lsinfreddy, and nothing else is linked. The caller's part
 * as the network, over interfaces ni[0] .. ni[n - 1] with `room` bytes for a message, without tests of statuses:
 *
 *     for (uint32_t r = 0, ready, number, made; r < n; r++) {
 *         for (SfReady(&ni[r], &ready); ready > 0; SfReady(&ni[r], &ready)) {
 *             SfReadyAt(&ni[r], 0, &number);
 *             SfFire(&ni[r], number, &made, &message, bytes, room);
 *             while (made) { // an answer goes the same way
 *                 SfDeliver(&ni[message.target], &message, bytes, message.bytes, &outcome, &made, &answer, back, room);
 *                 message = answer;
 *                 memcpy(bytes, back, room);
 *             }
 *         }
 *     }
 *
 * again and again until nothing is ready anywhere. Lengths, regions, rooms and max_msg_size may be 0.
 *
 * STATUSES. Each call answers one. It is SF_OK, and the call was made, or it says why the call wasn't made, and then the interface is
 * as it was and nothing was written through a pointer. Where several reasons hold, the first of these is told: a number that names
 * nothing (SF_UNKNOWN); SF_CLOSED; SF_SHORT; a rule that the arguments break (16 to 25), the lowest; a refusal (1 to 6), the lowest.
 * SfDeliver alone has another order, which stands there. Each function below names the statuses that it may answer beside SF_OK and
 * SF_CLOSED.
 *
 * WHAT A CALLER MUST KEEP, since no call can test it:
 *   - Each pointer leads to a value of its type, or to as many bytes as the length that follows it, also where that is 0; none is null but
 *     the handle's, which is told as a closed one (SF_CLOSED): each call is a macro too, which tests it. Two pointers of one call lead to
 *     different places.
 *   - A handle is used by one thread at a time. It isn't copied: the calls are given pointers to the one that PtlNIInit filled.
 *   - An `ptl_handle_ni_t` begins as SF_NI_CLOSED ({0}), and only these calls write to it.
 *   - malloc, realloc and free are the C library's, or others that keep to its rules.
 *   - A `bool` that is passed is 0 or 1.
 */
#ifndef SINFREDDY_H
#define SINFREDDY_H

#include <stdbool.h>
#include <stddef.h>
#include <stdint.h>

#ifdef __cplusplus
extern "C" {
#endif

/* The answers of calls. */
enum {
    SF_OK = 0,
    /* Refusals, in this order of precedence. */
    SF_STALE = 1,           /* a handle or a portal table index that the call names isn't live */
    SF_NO_SPACE = 2,        /* the table is full, its stamps are used up, or the index is past the limit */
    SF_OUT_OF_REGION = 3,   /* a part reaches past the end of the region, or of the descriptor */
    SF_IN_USE = 4,          /* the thing is still named by another one, or awaits an answer; or the index is allocated already */
    SF_COUNT_FULL = 5,      /* successes and failures of a counting event would together pass 2^64 - 1 */
    SF_NO_MEMORY = 6,       /* there was no memory */
    /* Rules that arguments break, in this order of precedence. */
    SF_UNKNOWN_RANK = 16,   /* the rank isn't below the number of ranks */
    SF_UNFIT_LIMITS = 17,   /* no tables can have these limits: see ptl_ni_limits_t */
    SF_TOO_LONG = 18,       /* the length passes max_msg_size, max_atomic_size or max_fetch_atomic_size */
    SF_PARTIAL_ELEMENT = 19,/* the length isn't one of whole elements; of a swap, not that of one */
    SF_HALVES_DIFFER = 20,  /* of a fetching operation; can't come from these calls, which give both halves the same arguments */
    SF_ASKS_ACK = 21,       /* a fetching operation asks for an acknowledgement; can't come from these calls either */
    SF_NO_ROOM = 22,        /* an event queue of no events */
    SF_OUTSIDE = 23,        /* a part that the host reads or writes reaches past the region */
    SF_ELSEWHERE = 24,      /* the message is for another rank */
    SF_NOT_READY = 25,      /* no operation of this number is ready, or none at this position */
    /* Of these calls alone. */
    SF_CLOSED = 32,         /* the handle holds no interface */
    SF_OPEN = 33,           /* the handle holds an interface already */
    SF_SHORT = 34,          /* a buffer is too short for what may be written into it */
    SF_UNKNOWN = 35,        /* a number names no operation, type, list, acknowledgement, register or option */
    SF_MALFORMED = 36       /* the header and the bytes are no message: see SfDeliver */
};

/* An interface, or none. Opaque: PtlNIInit fills it, PtlNIFini empties it. It is initialised by SF_NI_CLOSED or by zeros, as
 * `ptl_handle_ni_t ni[4] = { SF_NI_CLOSED };` does with all four. */
typedef struct {
    void *at;
    bool live;
} ptl_handle_ni_t;
#define SF_NI_CLOSED { NULL, false }

/* The name of a counting event, event queue, memory descriptor or match entry of one interface. Its stamp rises by one with each thing
 * that its table ever made, so that a handle whose thing is gone is never live again. A handle is copied freely. */
typedef struct {
    uint64_t stamp;
    uint32_t slot;
} ptl_handle_any_t;
typedef ptl_handle_any_t ptl_handle_ct_t;
typedef ptl_handle_any_t ptl_handle_eq_t;
typedef ptl_handle_any_t ptl_handle_md_t;
typedef ptl_handle_any_t ptl_handle_me_t;

/* In place of a counting event or a queue: none. No table gives this handle. */
static const ptl_handle_any_t PTL_INVALID_HANDLE = { UINT64_MAX, UINT32_MAX };
#define PTL_CT_NONE PTL_INVALID_HANDLE
#define PTL_EQ_NONE PTL_INVALID_HANDLE

/* What a counting event holds; the two together are at most 2^64 - 1. */
typedef struct {
    uint64_t success;
    uint64_t failure;
} ptl_ct_event_t;

/* What an interface is opened with; the actual limits are exactly these. They fit where max_entries + max_unexpected_headers is below
 * 2^32, and max_triggered_ops and max_cts are at most 2^27. The memory of the tables is taken when the interface is opened. */
typedef struct {
    uint32_t max_entries;            /* match entries linked at a time */
    uint32_t max_unexpected_headers; /* headers kept at a time, in all indices together */
    uint32_t max_mds;                /* memory descriptors bound at a time */
    uint32_t max_cts;                /* counting events at a time */
    uint32_t max_eqs;                /* event queues at a time */
    uint32_t max_pt_index;           /* portal table indices: every index is below this */
    uint32_t max_triggered_ops;      /* triggered operations at a time: each from its posting until it is fired or cancelled */
    uint64_t max_msg_size;           /* the longest operation of any kind, in bytes */
    uint64_t max_atomic_size;        /* the longest atomic, in bytes */
    uint64_t max_fetch_atomic_size;  /* the longest fetching atomic, in bytes */
} ptl_ni_limits_t;

/* A memory descriptor: the part of the region that operations read from and replies are written to. */
typedef struct {
    uint64_t start;            /* its first byte, as an offset in the region */
    uint64_t length;           /* in bytes */
    uint32_t options;          /* PTL_MD_EVENT_.., or'ed */
    ptl_handle_eq_t eq_handle; /* where its events go, or PTL_EQ_NONE */
    ptl_handle_ct_t ct_handle; /* what counts for it, or PTL_CT_NONE */
} ptl_md_t;
enum {
    PTL_MD_EVENT_CT_SEND = 1,  /* each start counts one success */
    PTL_MD_EVENT_CT_REPLY = 2, /* each reply counts one: a failure where it isn't ok */
    PTL_MD_EVENT_CT_ACK = 4,   /* each acknowledgement counts one, alike */
    /* Events that aren't raised; what is counted stays counted. */
    PTL_MD_EVENT_SEND_DISABLE = 8,    /* PTL_EVENT_SEND */
    PTL_MD_EVENT_SUCCESS_DISABLE = 16 /* each whose `ok` is 1 */
};

/* A match entry: a part of the region, what it matches, and what is done with a message that it matches. */
typedef struct {
    uint64_t start;            /* its first byte, as an offset in the region */
    uint64_t length;           /* in bytes */
    ptl_handle_ct_t ct_handle; /* what counts for it, or PTL_CT_NONE */
    uint32_t options;          /* PTL_ME_.., or'ed */
    uint32_t match_id;         /* the one rank that it takes messages from, or PTL_RANK_ANY */
    uint64_t match_bits;       /* compared with the message's, in every bit that isn't ignored */
    uint64_t ignore_bits;
    uint64_t min_free;         /* with PTL_ME_MANAGE_LOCAL: fewer free bytes than these unlink it */
} ptl_me_t;
#define PTL_RANK_ANY UINT32_MAX
enum {
    PTL_ME_OP_PUT = 1,          /* puts and atomics are allowed; fetching atomics and swaps need both */
    PTL_ME_OP_GET = 2,          /* gets are allowed */
    PTL_ME_USE_ONCE = 4,        /* the first message unlinks it */
    PTL_ME_MANAGE_LOCAL = 8,    /* it places messages one behind the other, at an offset of its own */
    PTL_ME_NO_TRUNCATE = 16,    /* a message that doesn't fit whole isn't matched; without it, it is cut, to no bytes too, and counted */
    PTL_ME_EVENT_CT_COMM = 32,  /* each message counts one success in ct_handle: nothing is counted where either is missing */
    PTL_ME_EVENT_CT_OVERFLOW = 64, /* each unexpected header that its append takes counts one success */
    /* Events that aren't raised; what is counted stays counted. A search looks at those of the entry that it is given. */
    PTL_ME_EVENT_LINK_DISABLE = 128,     /* PTL_EVENT_LINK */
    PTL_ME_EVENT_UNLINK_DISABLE = 256,   /* PTL_EVENT_AUTO_UNLINK, and PTL_EVENT_AUTO_FREE of an overflow entry */
    PTL_ME_EVENT_COMM_DISABLE = 512,     /* PTL_EVENT_PUT, _GET, _ATOMIC and _FETCH_ATOMIC */
    PTL_ME_EVENT_OVER_DISABLE = 1024,    /* PTL_EVENT_PUT_OVERFLOW and _ATOMIC_OVERFLOW */
    PTL_ME_EVENT_SUCCESS_DISABLE = 2048  /* each whose `ok` is 1 */
};

/* The two lists of a portal table index. */
enum { PTL_PRIORITY_LIST = 0, PTL_OVERFLOW_LIST = 1 };

/* What acknowledgement a put or an atomic asks for. The profile has no PTL_OC_ACK_REQ. */
enum {
    PTL_NO_ACK_REQ = 0,
    PTL_CT_ACK_REQ = 1, /* one that is counted */
    PTL_ACK_REQ = 2     /* one that is counted and raises an event */
};

/* The operations of atomics, element by element, and of swaps. */
enum { PTL_MIN, PTL_MAX, PTL_SUM, PTL_PROD, PTL_LOR, PTL_LAND, PTL_BOR, PTL_BAND, PTL_LXOR, PTL_BXOR };
enum { PTL_SWAP, PTL_CSWAP, PTL_MSWAP };
/* The types of elements: integers alone, little-endian, signed ones in two's complement. */
enum { PTL_UINT8_T, PTL_INT8_T, PTL_UINT16_T, PTL_INT16_T, PTL_UINT32_T, PTL_INT32_T, PTL_UINT64_T, PTL_INT64_T };

/* Events. A field that its kind doesn't name is 0, and `ok` is then 1. PROFILE.md, "Events", says when each is raised; it is the
 * profile's own. */
enum {
    PTL_EVENT_PUT, PTL_EVENT_PUT_OVERFLOW, PTL_EVENT_GET, PTL_EVENT_ATOMIC, PTL_EVENT_ATOMIC_OVERFLOW, PTL_EVENT_FETCH_ATOMIC,
    PTL_EVENT_REPLY, PTL_EVENT_SEND, PTL_EVENT_ACK, PTL_EVENT_LINK, PTL_EVENT_AUTO_UNLINK, PTL_EVENT_AUTO_FREE, PTL_EVENT_SEARCH
};
typedef struct {
    uint32_t type;       /* PTL_EVENT_.. */
    uint32_t initiator;  /* the rank that the message came from */
    uint32_t pt_index;
    uint32_t ok;         /* 1 where the operation, or the search, succeeded, else 0 */
    uint64_t match_bits;
    uint64_t hdr_data;
    uint64_t rlength;    /* the length that was asked for, in bytes */
    uint64_t mlength;    /* the length that was delivered, in bytes */
    uint64_t start;      /* where the bytes begin in the region; 0 where none were delivered */
} ptl_event_t;

/* A message's header, as it came out of a call. A caller carries it and the `bytes` bytes beside it, and needs no more of it than the
 * ranks. It has no pointers, so between processes of one machine it may be copied as it is; between machines SfEncode and SfDecode
 * serve. */
enum { SF_PUT, SF_GET, SF_ATOMIC, SF_FETCH_ATOMIC, SF_SWAP, SF_ACK, SF_REPLY };
typedef struct {
    uint32_t kind;         /* SF_PUT .. SF_REPLY; from SF_ACK on it is an answer */
    uint32_t source;       /* the rank that sent it */
    uint32_t target;       /* the rank that it is for */
    uint32_t pt_index;
    uint32_t ack_req;
    uint32_t operation;    /* 1 + PTL_MIN .., in an atomic and a fetching atomic; else 0 */
    uint32_t swap;         /* 1 + PTL_SWAP .., in a swap; else 0 */
    uint32_t datatype;
    uint32_t ok;           /* in an answer, 1 where the request was delivered, else 0; 1 in a request */
    ptl_handle_md_t home;  /* the descriptor that awaits the answer, or PTL_INVALID_HANDLE */
    uint64_t home_offset;  /* where in it a reply's bytes are written */
    uint64_t match_bits;
    uint64_t offset;       /* the remote offset, in bytes */
    uint64_t length;       /* in bytes: asked for in a request, delivered in an answer */
    uint64_t hdr_data;
    uint64_t operand;      /* of a swap */
    uint64_t bytes;        /* how many bytes go with it */
} sf_message_t;

/* ---- Interfaces -------------------------------------------------------------------------------------------------------------- */

/* Opens an interface of rank `rank` among `ranks`, over a copy of `length` bytes at `region`. It has no portal table index, entry,
 * descriptor, counting event, queue, header or triggered operation, and both registers are 0.
 * SF_OPEN: `ni` holds an interface already. SF_UNKNOWN_RANK, SF_UNFIT_LIMITS; SF_NO_MEMORY, where something may have been judged that
 * the arguments break. The standard's options, pid and network device aren't there: the interface is a matching one, addressed by rank. */
uint32_t PtlNIInit(uint32_t rank, uint32_t ranks, const ptl_ni_limits_t *limits, const uint8_t *region, size_t length,
                   ptl_handle_ni_t *ni);

/* Lets the interface go, and all that it holds; `ni` is closed afterwards. The standard passes the handle by value; here it is a
 * pointer, so that closing twice answers SF_CLOSED. */
uint32_t PtlNIFini(ptl_handle_ni_t *ni);

/* A status register: 0 counts messages that were dropped, 1 those that their entry didn't allow. Each stays at 2^64 - 1.
 * SF_UNKNOWN: another register, told after SF_CLOSED. */
enum { PTL_SR_DROP_COUNT = 0, PTL_SR_PERMISSION_VIOLATIONS = 1 };
uint32_t PtlNIStatus(ptl_handle_ni_t *ni, uint32_t status_register, uint64_t *value);

/* The host writes or reads `length` bytes of the region from `start` on. SF_OUTSIDE: they reach past its end. */
uint32_t SfWrite(ptl_handle_ni_t *ni, uint64_t start, const uint8_t *from, size_t length);
uint32_t SfRead(ptl_handle_ni_t *ni, uint64_t start, uint8_t *into, size_t length);

/* ---- Counting events ---------------------------------------------------------------------------------------------------------- */

/* A counting event of 0 and 0. SF_NO_SPACE. */
uint32_t PtlCTAlloc(ptl_handle_ni_t *ni, ptl_handle_ct_t *ct);
/* SF_STALE; SF_IN_USE: a descriptor, a linked entry or a triggered operation names it. The standard lets what waits on it go. */
uint32_t PtlCTFree(ptl_handle_ni_t *ni, ptl_handle_ct_t ct);
/* SF_STALE. The profile has no PtlCTWait and no PtlCTPoll: nothing happens between two calls, so there is nothing to wait for. */
uint32_t PtlCTGet(ptl_handle_ni_t *ni, ptl_handle_ct_t ct, ptl_ct_event_t *event);
/* The counting event is `to` from now on. SF_STALE, SF_COUNT_FULL. */
uint32_t PtlCTSet(ptl_handle_ni_t *ni, ptl_handle_ct_t ct, ptl_ct_event_t to);
/* Both numbers are added. SF_STALE, SF_COUNT_FULL. */
uint32_t PtlCTInc(ptl_handle_ni_t *ni, ptl_handle_ct_t ct, ptl_ct_event_t by);
/* Every triggered operation that waits on it is gone; `*cancelled` is how many they were. SF_STALE. */
uint32_t PtlCTCancelTriggered(ptl_handle_ni_t *ni, ptl_handle_ct_t ct, uint32_t *cancelled);

/* ---- Event queues ------------------------------------------------------------------------------------------------------------- */

/* An empty queue that keeps at most `count` events; a further one is lost. SF_NO_ROOM: `count` is 0. SF_NO_SPACE, SF_NO_MEMORY. */
uint32_t PtlEQAlloc(ptl_handle_ni_t *ni, uint32_t count, ptl_handle_eq_t *eq);
/* SF_STALE; SF_IN_USE: an index or a descriptor names it. */
uint32_t PtlEQFree(ptl_handle_ni_t *ni, ptl_handle_eq_t eq);
/* The oldest event. `*got` is SF_EQ_GOT, and the event left the queue; SF_EQ_EMPTY; or SF_EQ_DROPPED, once after events were lost:
 * those that were kept are still there. `*event` is written only with SF_EQ_GOT. SF_STALE. The standard answers PTL_EQ_EMPTY and
 * PTL_EQ_DROPPED as statuses, and gives an event with the latter. */
enum { SF_EQ_EMPTY = 0, SF_EQ_GOT = 1, SF_EQ_DROPPED = 2 };
uint32_t PtlEQGet(ptl_handle_ni_t *ni, ptl_handle_eq_t eq, ptl_event_t *event, uint32_t *got);

/* ---- Portal table indices, match entries, memory descriptors -------------------------------------------------------------------- */

/* Allocates the index `index`, whose events go to `eq` or, with PTL_EQ_NONE, nowhere. SF_STALE: the queue. SF_NO_SPACE: the index is at
 * or past the limit. SF_IN_USE: it is allocated. The standard picks an index where PTL_PT_ANY is asked for; the profile doesn't. */
uint32_t PtlPTAlloc(ptl_handle_ni_t *ni, uint32_t index, ptl_handle_eq_t eq);
/* SF_STALE; SF_IN_USE: one of its lists holds an entry, or a header of it waits. */
uint32_t PtlPTFree(ptl_handle_ni_t *ni, uint32_t index);

/* Appends an entry to a list of an index. To the priority list, a use-once entry takes the oldest unexpected header that it matches and
 * allows, if there is one, and isn't linked: `*me_handle` is then PTL_INVALID_HANDLE. A persistent one takes all of them and is linked.
 * To the overflow list it is linked. SF_STALE: the index or the counting event. SF_NO_SPACE. SF_OUT_OF_REGION. SF_UNKNOWN: an option or
 * the list. */
uint32_t PtlMEAppend(ptl_handle_ni_t *ni, uint32_t pt_index, const ptl_me_t *me, uint32_t list, ptl_handle_me_t *me_handle);
/* SF_STALE; SF_IN_USE: an unexpected header lies in its memory. */
uint32_t PtlMEUnlink(ptl_handle_ni_t *ni, ptl_handle_me_t me);
/* Looks for the oldest unexpected header that the entry matches and allows, and deletes it where `search_delete` is true; `*found` is 1
 * where there was one, else 0. The index's queue gets PTL_EVENT_SEARCH with what was found. SF_STALE: the index. SF_UNKNOWN. */
uint32_t PtlMESearch(ptl_handle_ni_t *ni, uint32_t pt_index, const ptl_me_t *me, bool search_delete, uint32_t *found);

/* Binds a descriptor. SF_STALE: its queue or counting event. SF_NO_SPACE. SF_OUT_OF_REGION. SF_UNKNOWN: an option. */
uint32_t PtlMDBind(ptl_handle_ni_t *ni, const ptl_md_t *md, ptl_handle_md_t *md_handle);
/* SF_STALE; SF_IN_USE: a triggered operation names it, or it awaits an answer. */
uint32_t PtlMDRelease(ptl_handle_ni_t *ni, ptl_handle_md_t md);
/* How many answers it awaits. SF_STALE. */
uint32_t SfAwaits(ptl_handle_ni_t *ni, ptl_handle_md_t md, uint64_t *answers);

/* ---- Starts --------------------------------------------------------------------------------------------------------------------- */

/* A start reads its bytes at once, and hands its message to the caller: its header in `*message`, its `message->bytes` bytes at `out`.
 * `room` bytes can be written there, at least max_msg_size of the interface, else SF_SHORT. Lengths and offsets are in bytes. All of
 * them: SF_STALE: a descriptor. SF_OUT_OF_REGION: the part reaches past its descriptor. SF_NO_MEMORY. SF_UNKNOWN_RANK, SF_TOO_LONG;
 * but for puts and gets SF_PARTIAL_ELEMENT. SF_UNKNOWN: the acknowledgement, operation or type. An index that the target doesn't have is no
 * fault of the start: the message is dropped there. */
uint32_t PtlPut(ptl_handle_ni_t *ni, ptl_handle_md_t md, uint64_t local_offset, uint64_t length, uint32_t ack_req, uint32_t target,
                uint32_t pt_index, uint64_t match_bits, uint64_t remote_offset, uint64_t hdr_data, sf_message_t *message, uint8_t *out,
                size_t room);
uint32_t PtlGet(ptl_handle_ni_t *ni, ptl_handle_md_t md, uint64_t local_offset, uint64_t length, uint32_t target, uint32_t pt_index,
                uint64_t match_bits, uint64_t remote_offset, sf_message_t *message, uint8_t *out, size_t room);
uint32_t PtlAtomic(ptl_handle_ni_t *ni, ptl_handle_md_t md, uint64_t local_offset, uint64_t length, uint32_t ack_req, uint32_t target,
                   uint32_t pt_index, uint64_t match_bits, uint64_t remote_offset, uint64_t hdr_data, uint32_t operation,
                   uint32_t datatype, sf_message_t *message, uint8_t *out, size_t room);
uint32_t PtlFetchAtomic(ptl_handle_ni_t *ni, ptl_handle_md_t get_md, uint64_t local_get_offset, ptl_handle_md_t put_md,
                        uint64_t local_put_offset, uint64_t length, uint32_t target, uint32_t pt_index, uint64_t match_bits,
                        uint64_t remote_offset, uint64_t hdr_data, uint32_t operation, uint32_t datatype, sf_message_t *message,
                        uint8_t *out, size_t room);
/* Of one element; `operand` is its value, widened, where the standard has a pointer to it. */
uint32_t PtlSwap(ptl_handle_ni_t *ni, ptl_handle_md_t get_md, uint64_t local_get_offset, ptl_handle_md_t put_md,
                 uint64_t local_put_offset, uint64_t length, uint32_t target, uint32_t pt_index, uint64_t match_bits,
                 uint64_t remote_offset, uint64_t hdr_data, uint64_t operand, uint32_t operation, uint32_t datatype,
                 sf_message_t *message, uint8_t *out, size_t room);

/* ---- Triggered operations --------------------------------------------------------------------------------------------------------- */

/* The arguments of the plain call, then the counting event that it waits on and the threshold. It is ready while successes and failures
 * of that counting event are together at least the threshold, also right after it was posted, and then waits for SfFire; `*number` is its
 * number: operations are numbered from 0 in the order of posting, and no number comes twice. Set to less before it is fired, the counting
 * event makes it unready again; whoever uses one anew had better count on to a higher threshold. SF_STALE: the counting event, or a thing
 * that the operation names. SF_NO_SPACE: so many wait, or the numbers, below 2^32, are used up. SF_COUNT_FULL: of PtlTriggeredCTInc and
 * PtlTriggeredCTSet alone. SF_NO_MEMORY. All that the plain call says of its arguments is said at posting, not when it is fired. */
uint32_t PtlTriggeredPut(ptl_handle_ni_t *ni, ptl_handle_md_t md, uint64_t local_offset, uint64_t length, uint32_t ack_req,
                         uint32_t target, uint32_t pt_index, uint64_t match_bits, uint64_t remote_offset, uint64_t hdr_data,
                         ptl_handle_ct_t trig_ct, uint64_t threshold, uint32_t *number);
uint32_t PtlTriggeredGet(ptl_handle_ni_t *ni, ptl_handle_md_t md, uint64_t local_offset, uint64_t length, uint32_t target,
                         uint32_t pt_index, uint64_t match_bits, uint64_t remote_offset, ptl_handle_ct_t trig_ct, uint64_t threshold,
                         uint32_t *number);
uint32_t PtlTriggeredAtomic(ptl_handle_ni_t *ni, ptl_handle_md_t md, uint64_t local_offset, uint64_t length, uint32_t ack_req,
                            uint32_t target, uint32_t pt_index, uint64_t match_bits, uint64_t remote_offset, uint64_t hdr_data,
                            uint32_t operation, uint32_t datatype, ptl_handle_ct_t trig_ct, uint64_t threshold, uint32_t *number);
uint32_t PtlTriggeredFetchAtomic(ptl_handle_ni_t *ni, ptl_handle_md_t get_md, uint64_t local_get_offset, ptl_handle_md_t put_md,
                                 uint64_t local_put_offset, uint64_t length, uint32_t target, uint32_t pt_index, uint64_t match_bits,
                                 uint64_t remote_offset, uint64_t hdr_data, uint32_t operation, uint32_t datatype,
                                 ptl_handle_ct_t trig_ct, uint64_t threshold, uint32_t *number);
uint32_t PtlTriggeredSwap(ptl_handle_ni_t *ni, ptl_handle_md_t get_md, uint64_t local_get_offset, ptl_handle_md_t put_md,
                          uint64_t local_put_offset, uint64_t length, uint32_t target, uint32_t pt_index, uint64_t match_bits,
                          uint64_t remote_offset, uint64_t hdr_data, uint64_t operand, uint32_t operation, uint32_t datatype,
                          ptl_handle_ct_t trig_ct, uint64_t threshold, uint32_t *number);
/* An increment that would pass the end of the counting event stops there. */
uint32_t PtlTriggeredCTInc(ptl_handle_ni_t *ni, ptl_handle_ct_t ct, ptl_ct_event_t by, ptl_handle_ct_t trig_ct, uint64_t threshold,
                           uint32_t *number);
uint32_t PtlTriggeredCTSet(ptl_handle_ni_t *ni, ptl_handle_ct_t ct, ptl_ct_event_t to, ptl_handle_ct_t trig_ct, uint64_t threshold,
                           uint32_t *number);

/* ---- The wire, which the standard has inside the interface ------------------------------------------------------------------------ */

/* How many triggered operations are ready, and the number of the one at position `i` among them, from 0, by rising number.
 * SF_NOT_READY: there are no more than `i`. */
uint32_t SfReady(ptl_handle_ni_t *ni, uint32_t *count);
uint32_t SfReadyAt(ptl_handle_ni_t *ni, uint32_t i, uint32_t *number);

/* Fires a ready operation, which is gone afterwards, its place free again. Where it starts an operation, `*made` is 1 and its message is
 * handed out as by a start; an increment or a set makes no message, and `*made` is 0, but `message` and `out` are wanted for it too.
 * SF_NOT_READY: it isn't ready. SF_SHORT: `room` is below max_msg_size, whatever the operation. */
uint32_t SfFire(ptl_handle_ni_t *ni, uint32_t number, uint32_t *made, sf_message_t *message, uint8_t *out, size_t room);

/* Hands a message that arrived to its interface; `*outcome` is what became of it. Where it asked for an answer, `*answered` is 1 and the
 * answer is handed out as by a start, else 0. `message` and `answer` may not be the same, nor `bytes` and `out`.
 * In this order: SF_UNKNOWN: a number of the header names nothing. SF_MALFORMED: `length` isn't how many bytes go with such a header
 * (message->length for a put, an atomic, a fetching atomic, a swap and a reply that is ok; 0 else), or it lacks an operation or has one
 * too many, or its length isn't one of whole elements. SF_NO_MEMORY. SF_SHORT: `room` is below message->length. SF_CLOSED.
 * SF_ELSEWHERE: it is for another rank. */
enum {
    SF_MATCHED,  /* an entry of the priority list took the request */
    SF_OVERFLOW, /* one of the overflow list did, and its header waits for an append or a search */
    SF_ANSWERED, /* an acknowledgement or a reply, and it was taken in */
    SF_DROPPED,  /* no such index, no entry that matches, no room for a header, or an answer that isn't due: PTL_SR_DROP_COUNT */
    SF_VIOLATION /* the entry that matches doesn't allow it: PTL_SR_PERMISSION_VIOLATIONS */
};
uint32_t SfDeliver(ptl_handle_ni_t *ni, const sf_message_t *message, const uint8_t *bytes, size_t length, uint32_t *outcome,
                   uint32_t *answered, sf_message_t *answer, uint8_t *out, size_t room);

/* ---- Messages between machines ---------------------------------------------------------------------------------------------------- */

/* Writes a message and the `length` bytes that go with it as bytes that may cross machines: SF_FRAME_HEADER bytes, little-endian, and then
 * those that go with it (docs/PROFILE.md, "A message as bytes"). `*written` is how many they are. SF_UNKNOWN, SF_MALFORMED: as SfDeliver
 * says them. SF_NO_MEMORY. SF_SHORT: `room` is less than that. */
enum { SF_FRAME_HEADER = 80 };
uint32_t SfEncode(const sf_message_t *message, const uint8_t *bytes, size_t length, uint8_t *out, size_t room, uint64_t *written);

/* Reads the message that `length` bytes encode, all of them, and hands it out: what was encoded is read again as it was. SF_MALFORMED: they
 * encode none. SF_NO_MEMORY. SF_SHORT: `room` is less than the bytes that go with it. */
uint32_t SfDecode(const uint8_t *frame, size_t length, sf_message_t *message, uint8_t *out, size_t room);

#ifdef __cplusplus
}
#endif

/* A null handle is told as a closed one: here, before the library is called. */
static inline ptl_handle_ni_t *sf_handle(ptl_handle_ni_t *ni) {
    static ptl_handle_ni_t closed = SF_NI_CLOSED;
    return ni == NULL ? &closed : ni;
}
static inline uint32_t sf_init(uint32_t rank, uint32_t ranks, const ptl_ni_limits_t *limits, const uint8_t *region, size_t length,
                               ptl_handle_ni_t *ni) {
    return ni == NULL ? (uint32_t)SF_CLOSED : PtlNIInit(rank, ranks, limits, region, length, ni);
}
#define PtlNIInit(...) sf_init(__VA_ARGS__)
#define PtlNIFini(ni) PtlNIFini(sf_handle(ni))
#define PtlNIStatus(ni, ...) PtlNIStatus(sf_handle(ni), __VA_ARGS__)
#define SfWrite(ni, ...) SfWrite(sf_handle(ni), __VA_ARGS__)
#define SfRead(ni, ...) SfRead(sf_handle(ni), __VA_ARGS__)
#define PtlCTAlloc(ni, ...) PtlCTAlloc(sf_handle(ni), __VA_ARGS__)
#define PtlCTFree(ni, ...) PtlCTFree(sf_handle(ni), __VA_ARGS__)
#define PtlCTGet(ni, ...) PtlCTGet(sf_handle(ni), __VA_ARGS__)
#define PtlCTSet(ni, ...) PtlCTSet(sf_handle(ni), __VA_ARGS__)
#define PtlCTInc(ni, ...) PtlCTInc(sf_handle(ni), __VA_ARGS__)
#define PtlCTCancelTriggered(ni, ...) PtlCTCancelTriggered(sf_handle(ni), __VA_ARGS__)
#define PtlEQAlloc(ni, ...) PtlEQAlloc(sf_handle(ni), __VA_ARGS__)
#define PtlEQFree(ni, ...) PtlEQFree(sf_handle(ni), __VA_ARGS__)
#define PtlEQGet(ni, ...) PtlEQGet(sf_handle(ni), __VA_ARGS__)
#define PtlPTAlloc(ni, ...) PtlPTAlloc(sf_handle(ni), __VA_ARGS__)
#define PtlPTFree(ni, ...) PtlPTFree(sf_handle(ni), __VA_ARGS__)
#define PtlMEAppend(ni, ...) PtlMEAppend(sf_handle(ni), __VA_ARGS__)
#define PtlMEUnlink(ni, ...) PtlMEUnlink(sf_handle(ni), __VA_ARGS__)
#define PtlMESearch(ni, ...) PtlMESearch(sf_handle(ni), __VA_ARGS__)
#define PtlMDBind(ni, ...) PtlMDBind(sf_handle(ni), __VA_ARGS__)
#define PtlMDRelease(ni, ...) PtlMDRelease(sf_handle(ni), __VA_ARGS__)
#define SfAwaits(ni, ...) SfAwaits(sf_handle(ni), __VA_ARGS__)
#define PtlPut(ni, ...) PtlPut(sf_handle(ni), __VA_ARGS__)
#define PtlGet(ni, ...) PtlGet(sf_handle(ni), __VA_ARGS__)
#define PtlAtomic(ni, ...) PtlAtomic(sf_handle(ni), __VA_ARGS__)
#define PtlFetchAtomic(ni, ...) PtlFetchAtomic(sf_handle(ni), __VA_ARGS__)
#define PtlSwap(ni, ...) PtlSwap(sf_handle(ni), __VA_ARGS__)
#define PtlTriggeredPut(ni, ...) PtlTriggeredPut(sf_handle(ni), __VA_ARGS__)
#define PtlTriggeredGet(ni, ...) PtlTriggeredGet(sf_handle(ni), __VA_ARGS__)
#define PtlTriggeredAtomic(ni, ...) PtlTriggeredAtomic(sf_handle(ni), __VA_ARGS__)
#define PtlTriggeredFetchAtomic(ni, ...) PtlTriggeredFetchAtomic(sf_handle(ni), __VA_ARGS__)
#define PtlTriggeredSwap(ni, ...) PtlTriggeredSwap(sf_handle(ni), __VA_ARGS__)
#define PtlTriggeredCTInc(ni, ...) PtlTriggeredCTInc(sf_handle(ni), __VA_ARGS__)
#define PtlTriggeredCTSet(ni, ...) PtlTriggeredCTSet(sf_handle(ni), __VA_ARGS__)
#define SfReady(ni, ...) SfReady(sf_handle(ni), __VA_ARGS__)
#define SfReadyAt(ni, ...) SfReadyAt(sf_handle(ni), __VA_ARGS__)
#define SfFire(ni, ...) SfFire(sf_handle(ni), __VA_ARGS__)
#define SfDeliver(ni, ...) SfDeliver(sf_handle(ni), __VA_ARGS__)

#endif
