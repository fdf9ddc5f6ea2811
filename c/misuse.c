/* Each call on a handle that holds no interface and on a null one, and calls whose arguments break a rule: each answers a status, and the
 * interface is as it was. Status 0: each answer was as it has to be. */
#include "sinfreddy.h"
#include <stdio.h>

static int failed;

static void want(const char *what, uint32_t got, uint32_t due) {
    if (got != due) {
        printf("%s: status %u, not %u\n", what, got, due);
        failed = 1;
    }
}

static const ptl_ni_limits_t limits = { 4, 2, 2, 2, 1, 2, 4, 16, 8, 8 };
static const uint8_t region[8];

static void closed(ptl_handle_ni_t *ni) {
    ptl_handle_any_t h = { 0, 0 };
    ptl_ct_event_t count = { 0, 0 };
    ptl_event_t event;
    ptl_md_t md = { .eq_handle = PTL_EQ_NONE, .ct_handle = PTL_CT_NONE };
    ptl_me_t me = { .ct_handle = PTL_CT_NONE };
    sf_message_t m = { 0 }, out;
    uint8_t bytes[16] = { 0 };
    uint32_t n, k;
    uint64_t big;
    want("PtlNIFini", PtlNIFini(ni), SF_CLOSED);
    want("PtlNIStatus", PtlNIStatus(ni, 0, &big), SF_CLOSED);
    want("SfWrite", SfWrite(ni, 0, region, 8), SF_CLOSED);
    want("SfRead", SfRead(ni, 0, bytes, 8), SF_CLOSED);
    want("PtlCTAlloc", PtlCTAlloc(ni, &h), SF_CLOSED);
    want("PtlCTFree", PtlCTFree(ni, h), SF_CLOSED);
    want("PtlCTGet", PtlCTGet(ni, h, &count), SF_CLOSED);
    want("PtlCTSet", PtlCTSet(ni, h, count), SF_CLOSED);
    want("PtlCTInc", PtlCTInc(ni, h, count), SF_CLOSED);
    want("PtlCTCancelTriggered", PtlCTCancelTriggered(ni, h, &n), SF_CLOSED);
    want("PtlEQAlloc", PtlEQAlloc(ni, 1, &h), SF_CLOSED);
    want("PtlEQFree", PtlEQFree(ni, h), SF_CLOSED);
    want("PtlEQGet", PtlEQGet(ni, h, &event, &n), SF_CLOSED);
    want("PtlPTAlloc", PtlPTAlloc(ni, 0, PTL_EQ_NONE), SF_CLOSED);
    want("PtlPTFree", PtlPTFree(ni, 0), SF_CLOSED);
    want("PtlMEAppend", PtlMEAppend(ni, 0, &me, 0, &h), SF_CLOSED);
    want("PtlMEUnlink", PtlMEUnlink(ni, h), SF_CLOSED);
    want("PtlMESearch", PtlMESearch(ni, 0, &me, false, &n), SF_CLOSED);
    want("PtlMDBind", PtlMDBind(ni, &md, &h), SF_CLOSED);
    want("PtlMDRelease", PtlMDRelease(ni, h), SF_CLOSED);
    want("SfAwaits", SfAwaits(ni, h, &big), SF_CLOSED);
    want("PtlPut", PtlPut(ni, h, 0, 0, 0, 0, 0, 0, 0, 0, &out, bytes, 16), SF_CLOSED);
    want("PtlGet", PtlGet(ni, h, 0, 0, 0, 0, 0, 0, &out, bytes, 16), SF_CLOSED);
    want("PtlTriggeredPut", PtlTriggeredPut(ni, h, 0, 0, 0, 0, 0, 0, 0, 0, h, 1, &n), SF_CLOSED);
    want("PtlTriggeredCTInc", PtlTriggeredCTInc(ni, h, count, h, 1, &n), SF_CLOSED);
    want("SfReady", SfReady(ni, &n), SF_CLOSED);
    want("SfReadyAt", SfReadyAt(ni, 0, &n), SF_CLOSED);
    want("SfFire", SfFire(ni, 0, &n, &out, bytes, 16), SF_CLOSED);
    want("SfDeliver", SfDeliver(ni, &m, region, 0, &n, &k, &out, bytes, 16), SF_CLOSED);
}

static void misused(ptl_handle_ni_t *ni) {
    ptl_handle_any_t stale = { 7, 1 }, h;
    ptl_ct_event_t count;
    ptl_md_t md = { .length = 8, .eq_handle = PTL_EQ_NONE, .ct_handle = PTL_CT_NONE };
    ptl_me_t me = { .ct_handle = PTL_CT_NONE };
    sf_message_t m = { 0 }, out;
    uint8_t bytes[16] = { 0 };
    uint32_t n, k;
    uint64_t big;
    want("opening twice", PtlNIInit(0, 2, &limits, region, 8, ni), SF_OPEN);
    want("a register", PtlNIStatus(ni, 2, &big), SF_UNKNOWN);
    want("a write past the region", SfWrite(ni, 1, region, 8), SF_OUTSIDE);
    want("a read past the region", SfRead(ni, UINT64_MAX, bytes, 8), SF_OUTSIDE);
    want("a stale counter", PtlCTGet(ni, stale, &count), SF_STALE);
    want("a queue of no room", PtlEQAlloc(ni, 0, &h), SF_NO_ROOM);
    want("an index past the limit", PtlPTAlloc(ni, 2, PTL_EQ_NONE), SF_NO_SPACE);
    want("a list", PtlMEAppend(ni, 0, &me, 2, &h), SF_UNKNOWN);
    want("an index that isn't allocated", PtlMEAppend(ni, 0, &me, 0, &h), SF_STALE);
    me.options = 4096;
    want("an option of an entry", PtlMEAppend(ni, 0, &me, 0, &h), SF_UNKNOWN);
    want("a descriptor", PtlMDBind(ni, &md, &h), SF_OK);
    md.start = 1;
    want("a descriptor past the region", PtlMDBind(ni, &md, &stale), SF_OUT_OF_REGION);
    want("an acknowledgement", PtlPut(ni, h, 0, 8, 3, 1, 0, 0, 0, 0, &out, bytes, 16), SF_UNKNOWN);
    want("a short buffer", PtlPut(ni, h, 0, 8, 0, 1, 0, 0, 0, 0, &out, bytes, 15), SF_SHORT);
    want("a rank", PtlPut(ni, h, 0, 8, 0, 2, 0, 0, 0, 0, &out, bytes, 16), SF_UNKNOWN_RANK);
    want("a length", PtlPut(ni, h, 0, 17, 0, 1, 0, 0, 0, 0, &out, bytes, 16), SF_TOO_LONG);
    want("past the descriptor", PtlPut(ni, h, 1, 8, 0, 1, 0, 0, 0, 0, &out, bytes, 16), SF_OUT_OF_REGION);
    want("half an element", PtlAtomic(ni, h, 0, 3, 0, 1, 0, 0, 0, 0, PTL_SUM, PTL_UINT16_T, &out, bytes, 16), SF_PARTIAL_ELEMENT);
    want("nothing ready", SfFire(ni, 0, &n, &out, bytes, 16), SF_NOT_READY);
    want("nothing at 0", SfReadyAt(ni, 0, &n), SF_NOT_READY);
    m.target = 1;
    want("elsewhere", SfDeliver(ni, &m, region, 0, &n, &k, &out, bytes, 16), SF_ELSEWHERE);
    want("bytes too many", SfDeliver(ni, &m, region, 1, &n, &k, &out, bytes, 16), SF_MALFORMED);
    m.kind = 7;
    want("a kind", SfDeliver(ni, &m, region, 0, &n, &k, &out, bytes, 16), SF_UNKNOWN);
    m.kind = SF_GET, m.length = 17;
    want("a short buffer for a reply", SfDeliver(ni, &m, region, 0, &n, &k, &out, bytes, 16), SF_SHORT);
}

int main(void) {
    ptl_handle_ni_t ni = SF_NI_CLOSED;
    ptl_ni_limits_t unfit = limits;
    closed(&ni);
    closed(NULL);
    want("no handle to open", PtlNIInit(0, 2, &limits, region, 8, NULL), SF_CLOSED);
    unfit.max_cts = UINT32_MAX;
    want("a rank that is none", PtlNIInit(2, 2, &limits, region, 8, &ni), SF_UNKNOWN_RANK);
    want("limits that don't fit", PtlNIInit(0, 2, &unfit, region, 8, &ni), SF_UNFIT_LIMITS);
    want("opening", PtlNIInit(0, 2, &limits, region, 8, &ni), SF_OK);
    misused(&ni);
    want("closing", PtlNIFini(&ni), SF_OK);
    closed(&ni);
    if (!failed)
        printf("each misuse answered its status\n");
    return failed;
}
