/* What a put of eight bytes with its acknowledgement costs, both delivered, between two small interfaces:
 *
 *     put_cost [PUTS]
 *
 * `small_programs calls timed` tells the same of calls in Rattle. */
#define _POSIX_C_SOURCE 199309L
#include "sinfreddy.h"
#include <stdio.h>
#include <stdlib.h>
#include <time.h>

enum { ROOM = 64, LENGTH = 8, BITS = 5 };

static double nanoseconds(void) {
    struct timespec t;
    clock_gettime(CLOCK_MONOTONIC, &t);
    return (double)t.tv_sec * 1e9 + (double)t.tv_nsec;
}

int main(int argc, char **argv) {
    static const uint8_t region[ROOM];
    static const ptl_ni_limits_t limits = { 8, 8, 8, 8, 4, 4, 8, ROOM, ROOM, ROOM };
    unsigned long puts = argc > 1 ? strtoul(argv[1], NULL, 10) : 10000;
    ptl_handle_ni_t from = SF_NI_CLOSED, to = SF_NI_CLOSED;
    ptl_handle_ct_t acknowledged = PTL_INVALID_HANDLE;
    ptl_handle_md_t md = PTL_INVALID_HANDLE;
    ptl_handle_me_t me;
    ptl_ct_event_t count;
    sf_message_t message, answer;
    uint8_t bytes[ROOM], back[ROOM];
    uint32_t outcome, answered;
    int failed = PtlNIInit(0, 2, &limits, region, ROOM, &from) || PtlNIInit(1, 2, &limits, region, ROOM, &to)
                 || PtlCTAlloc(&from, &acknowledged) || PtlPTAlloc(&to, 0, PTL_EQ_NONE);
    ptl_md_t descriptor = { 0, LENGTH, PTL_MD_EVENT_CT_ACK, PTL_EQ_NONE, acknowledged };
    ptl_me_t entry = { .length = LENGTH, .ct_handle = PTL_CT_NONE, .options = PTL_ME_OP_PUT, .match_id = PTL_RANK_ANY, .match_bits = BITS };
    failed = failed || PtlMDBind(&from, &descriptor, &md) || PtlMEAppend(&to, 0, &entry, PTL_PRIORITY_LIST, &me);
    double begun = nanoseconds();
    for (unsigned long i = 0; i < puts && !failed; i++) {
        failed = PtlPut(&from, md, 0, LENGTH, PTL_CT_ACK_REQ, 1, 0, BITS, 0, 0, &message, bytes, ROOM)
                 || SfDeliver(&to, &message, bytes, message.bytes, &outcome, &answered, &answer, back, ROOM) || !answered
                 || SfDeliver(&from, &answer, back, answer.bytes, &outcome, &answered, &message, bytes, ROOM);
    }
    double taken = nanoseconds() - begun;
    failed = failed || PtlCTGet(&from, acknowledged, &count) || count.success != puts || PtlNIFini(&from) || PtlNIFini(&to);
    if (failed) {
        printf("a call failed\n");
        return 1;
    }
    printf("%lu puts with their acknowledgements: %.0f ns each\n", puts, puts ? taken / (double)puts : 0.0);
    return 0;
}
