/* A broadcast of eight bytes from rank 0 to ranks 1, 2 and 3, along a tree of two levels, by triggered operations: four interfaces in
 * one process. Each rank appends an entry for what comes and posts what it forwards beforehand; rank 0 then raises one counting event,
 * and messages and counting events do the rest. Status 0: each rank holds the bytes. */
#include "sinfreddy.h"
#include <stdio.h>
#include <stdlib.h>
#include <string.h>

enum { RANKS = 4, SIZE = 8 };

static ptl_handle_ni_t ni[RANKS] = { SF_NI_CLOSED, SF_NI_CLOSED, SF_NI_CLOSED, SF_NI_CLOSED };
static ptl_handle_ct_t arrived[RANKS];

static void must(uint32_t status, const char *what) {
    if (status != SF_OK) {
        fprintf(stderr, "%s: status %u\n", what, status);
        exit(1);
    }
}

/* Opens a rank, whose counting event counts what arrives in its region. */
static void prepare(uint32_t rank) {
    const ptl_ni_limits_t limits = { 1, 1, 1, 1, 1, 1, 2, SIZE, SIZE, SIZE };
    uint8_t region[SIZE] = { 0 };
    ptl_handle_me_t entry;
    ptl_me_t me = { .length = SIZE, .options = PTL_ME_OP_PUT | PTL_ME_EVENT_CT_COMM, .match_id = PTL_RANK_ANY };
    if (rank == 0)
        memcpy(region, "triggers", SIZE);
    must(PtlNIInit(rank, RANKS, &limits, region, SIZE, &ni[rank]), "open");
    must(PtlCTAlloc(&ni[rank], &arrived[rank]), "counter");
    me.ct_handle = arrived[rank];
    must(PtlPTAlloc(&ni[rank], 0, PTL_EQ_NONE), "index");
    must(PtlMEAppend(&ni[rank], 0, &me, PTL_PRIORITY_LIST, &entry), "entry");
}

/* A rank sends its region on to another one once it holds the bytes. */
static void forward(uint32_t rank, ptl_handle_md_t md, uint32_t to) {
    uint32_t number;
    must(PtlTriggeredPut(&ni[rank], md, 0, SIZE, PTL_NO_ACK_REQ, to, 0, 0, 0, 0, arrived[rank], 1, &number), "post");
}

static ptl_handle_md_t bind(uint32_t rank) {
    const ptl_md_t md = { .length = SIZE, .eq_handle = PTL_EQ_NONE, .ct_handle = PTL_CT_NONE };
    ptl_handle_md_t handle;
    must(PtlMDBind(&ni[rank], &md, &handle), "bind");
    return handle;
}

/* Fires what is ready at a rank and carries it, until nothing is. True where something was. */
static bool progress(uint32_t rank) {
    bool did = false;
    for (;;) {
        uint32_t ready, number, made, outcome, answered;
        uint8_t bytes[SIZE], back[SIZE];
        sf_message_t message, answer;
        must(SfReady(&ni[rank], &ready), "ready");
        if (ready == 0)
            return did;
        must(SfReadyAt(&ni[rank], 0, &number), "ready at");
        must(SfFire(&ni[rank], number, &made, &message, bytes, SIZE), "fire");
        if (made)
            must(SfDeliver(&ni[message.target], &message, bytes, message.bytes, &outcome, &answered, &answer, back, SIZE), "deliver");
        did = true;
    }
}

int main(void) {
    int wrong = 0;
    for (uint32_t rank = 0; rank < RANKS; rank++)
        prepare(rank);
    ptl_handle_md_t root = bind(0);
    forward(0, root, 2);
    forward(0, root, 1);
    forward(2, bind(2), 3);
    must(PtlCTInc(&ni[0], arrived[0], (ptl_ct_event_t) { 1, 0 }), "go");
    for (bool did = true; did;) {
        did = false;
        for (uint32_t rank = 0; rank < RANKS; rank++)
            did = progress(rank) || did;
    }
    for (uint32_t rank = 0; rank < RANKS; rank++) {
        uint8_t held[SIZE];
        must(SfRead(&ni[rank], 0, held, SIZE), "read");
        printf("rank %u holds %.8s\n", rank, (const char *)held);
        wrong |= memcmp(held, "triggers", SIZE) != 0;
        must(PtlNIFini(&ni[rank]), "close");
    }
    return wrong;
}
