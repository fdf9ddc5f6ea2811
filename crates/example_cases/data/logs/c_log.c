/* Prints the log of one put between two ranks, as a driver would that makes the calls itself: docs/LOG.md has the form of each line.
   The answers that are printed here stand for what a device answered. */
#include <stdio.h>

static void hex(const unsigned char *bytes, size_t count)
{
    size_t i;
    if (count == 0)
        printf("-");
    for (i = 0; i < count; i++)
        printf("%02x", bytes[i]);
}

int main(void)
{
    const unsigned char region[4] = {1, 2, 3, 4}, after[4] = {3, 4, 0, 0};
    const unsigned long long counter = 0x7f00, descriptor = 0x7f40;
    printf("ni 1\nranks %u\n", 2u);
    printf("%u open mds=%u cts=%u msg=%llu region=", 0u, 1u, 1u, 16ull);
    hex(region, 4);
    printf(" -> ok\n%u open entries=%u pts=%u msg=%llu region=00000000 -> ok\n", 1u, 1u, 1u, 16ull);
    printf("%u pt_alloc %u -> ok\n", 1u, 0u);
    printf("%u me_append %u priority length=%llu bits=0x%llx put -> linked %s\n", 1u, 0u, 4ull, 5ull, "m0");
    printf("%u ct_alloc -> %llx\n", 0u, counter);
    printf("%u md_bind length=%llu ct=%llx ack -> %llx\n", 0u, 4ull, counter, descriptor);
    printf("%u put %llx offset=%llu length=%llu ack=ct target=%u bits=0x%llx -> ?\n", 0u, descriptor, 2ull, 2ull, 1u, 5ull);
    printf("settle\n%u read %llu %llu -> ", 1u, 0ull, 4ull);
    hex(after, 4);
    printf("\n%u ct_get %llx -> %llu %llu\nend\n", 0u, counter, 1ull, 0ull);
    return 0;
}
