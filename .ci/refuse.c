/* Refuses one allocation of a program that it is loaded into before all else (LD_PRELOAD): the one whose number, from 1, the
 * environment's REFUSE names, in the order in which the process asks, on whatever thread. It then writes a byte to the file
 * descriptor 9, so that whoever runs the program knows that there was one. Built by .ci/memory_walk. */
#include <stdatomic.h>
#include <stddef.h>
#include <stdlib.h>
#include <unistd.h>

extern void *__libc_malloc(size_t size);

static atomic_long asked;
static long refused;

__attribute__((constructor)) static void read_number(void)
{
    const char *number = getenv("REFUSE");
    atomic_store(&asked, 0);
    refused = number ? atol(number) : 0;
}

void *malloc(size_t size)
{
    if (refused == 0 || atomic_fetch_add(&asked, 1) + 1 != refused)
        return __libc_malloc(size);
    (void)!write(9, "", 1);
    return NULL;
}
