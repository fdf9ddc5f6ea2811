/* How long a barrier, a broadcast of 8 bytes and an allreduce of 32 KB (4096 sums of 8 bytes) take by MPI's own calls.
 *
 *   mpirun -n 4 mpi_times
 *
 * A line each: the word, the microseconds of the first call, the median of single calls, and the mean of 64 calls one after another,
 * each from a barrier to the end of the last process. */
#include <mpi.h>
#include <stdint.h>
#include <stdio.h>
#include <stdlib.h>

enum { CALLS = 1000, ROW = 64, ELEMENTS = 4096 };

static int rank;
static uint64_t from[ELEMENTS], to[ELEMENTS];

static void barrier(void) { MPI_Barrier(MPI_COMM_WORLD); }
static void broadcast(void) { MPI_Bcast(to, 1, MPI_UINT64_T, 0, MPI_COMM_WORLD); }
static void allreduce(void) { MPI_Allreduce(from, to, ELEMENTS, MPI_UINT64_T, MPI_SUM, MPI_COMM_WORLD); }

/* The longest of all processes, in microseconds. */
static double time_of(void (*call)(void), int count) {
    MPI_Barrier(MPI_COMM_WORLD);
    double begun = MPI_Wtime();
    for (int i = 0; i < count; i++) call();
    double took = 1e6 * (MPI_Wtime() - begun), most;
    MPI_Allreduce(&took, &most, 1, MPI_DOUBLE, MPI_MAX, MPI_COMM_WORLD);
    return most;
}

static int by_size(const void *a, const void *b) {
    double x = *(const double *)a, y = *(const double *)b;
    return (x > y) - (x < y);
}

static void measure(const char *word, void (*call)(void)) {
    static double single[CALLS], row[CALLS / ROW];
    double first = time_of(call, 1);
    for (int i = 0; i < CALLS; i++) single[i] = time_of(call, 1);
    for (int i = 0; i < CALLS / ROW; i++) row[i] = time_of(call, ROW) / ROW;
    qsort(single, CALLS, sizeof *single, by_size);
    qsort(row, CALLS / ROW, sizeof *row, by_size);
    if (!rank) printf("%s %.1f %.1f %.1f\n", word, first, single[CALLS / 2], row[CALLS / ROW / 2]);
}

int main(int argc, char **argv) {
    MPI_Init(&argc, &argv);
    MPI_Comm_rank(MPI_COMM_WORLD, &rank);
    for (int i = 0; i < ELEMENTS; i++) from[i] = (uint64_t)(rank + i);
    measure("barrier", barrier);
    measure("broadcast", broadcast);
    measure("allreduce", allreduce);
    MPI_Finalize();
    return 0;
}
