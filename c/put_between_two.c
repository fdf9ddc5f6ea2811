/* A put with its acknowledgement, between two interfaces of four bytes each: the example of docs and of crates/portals_ni, in C. Status
 * 0: each answer was as it has to be. */
#include "sinfreddy.h"
#include <stdio.h>
#include <string.h>

static int failed;

static void want(const char *what, uint64_t got, uint64_t due) {
    if (got != due) {
        printf("%s: %llu, not %llu\n", what, (unsigned long long)got, (unsigned long long)due);
        failed = 1;
    }
}

int main(void) {
    const ptl_ni_limits_t limits = { 4, 2, 2, 2, 1, 2, 4, 16, 8, 8 };
    const uint8_t ours[4] = { 1, 2, 3, 4 }, theirs[4] = { 0, 0, 0, 0 };
    ptl_handle_ni_t initiator = SF_NI_CLOSED, target = SF_NI_CLOSED;
    want("open rank 0", PtlNIInit(0, 2, &limits, ours, 4, &initiator), SF_OK);
    want("open rank 1", PtlNIInit(1, 2, &limits, theirs, 4, &target), SF_OK);

    /* The target waits at index 0 with an entry over its whole region, for match bits 5 from any rank. */
    ptl_handle_me_t entry;
    const ptl_me_t me = { .length = 4, .ct_handle = PTL_CT_NONE, .options = PTL_ME_OP_PUT, .match_id = PTL_RANK_ANY, .match_bits = 5 };
    want("index", PtlPTAlloc(&target, 0, PTL_EQ_NONE), SF_OK);
    want("append", PtlMEAppend(&target, 0, &me, PTL_PRIORITY_LIST, &entry), SF_OK);

    /* The initiator binds its whole region, and counts acknowledgements. */
    ptl_handle_ct_t acknowledged;
    want("counter", PtlCTAlloc(&initiator, &acknowledged), SF_OK);
    const ptl_md_t region = { .length = 4, .options = PTL_MD_EVENT_CT_ACK, .eq_handle = PTL_EQ_NONE, .ct_handle = acknowledged };
    ptl_handle_md_t md;
    want("bind", PtlMDBind(&initiator, &region, &md), SF_OK);

    /* It puts its last two bytes to the start of the entry. */
    sf_message_t put, answer;
    uint8_t bytes[16], back[16], there[4];
    uint32_t outcome, answered;
    uint64_t awaited;
    want("put", PtlPut(&initiator, md, 2, 2, PTL_CT_ACK_REQ, 1, 0, 5, 0, 0, &put, bytes, sizeof bytes), SF_OK);
    want("bytes of the put", put.bytes, 2);
    want("awaits", SfAwaits(&initiator, md, &awaited), SF_OK);
    want("awaited", awaited, 1);

    /* The message arrives, and its two bytes with it. */
    want("deliver", SfDeliver(&target, &put, bytes, put.bytes, &outcome, &answered, &answer, back, sizeof back), SF_OK);
    want("outcome", outcome, SF_MATCHED);
    want("answered", answered, 1);
    want("read", SfRead(&target, 0, there, 4), SF_OK);
    want("memory", memcmp(there, (uint8_t[]) { 3, 4, 0, 0 }, 4) == 0, 1);

    /* The answer comes home and is counted. */
    sf_message_t none;
    ptl_ct_event_t count;
    want("home", SfDeliver(&initiator, &answer, back, answer.bytes, &outcome, &answered, &none, bytes, sizeof bytes), SF_OK);
    want("outcome at home", outcome, SF_ANSWERED);
    want("count", PtlCTGet(&initiator, acknowledged, &count), SF_OK);
    want("acknowledgements", count.success, 1);

    want("close rank 0", PtlNIFini(&initiator), SF_OK);
    want("close rank 1", PtlNIFini(&target), SF_OK);
    if (!failed)
        printf("the put arrived and was acknowledged\n");
    return failed;
}
