/* What a frame costs on two pipes: how long one takes to a child that writes it back, and again.
 *
 *   pipe_times
 *
 * A line for each size: the bytes, and the median of the microseconds of 2,000 frames there and back. The waiting is that of
 * examples/mpi/mpi_rank.c: the processor is left to others, and the pipe read again. */
#define _GNU_SOURCE
#include <fcntl.h>
#include <sched.h>
#include <signal.h>
#include <stdio.h>
#include <stdlib.h>
#include <sys/wait.h>
#include <time.h>
#include <unistd.h>

enum { TIMES = 2000, MOST = 32856 };

static unsigned char bytes[MOST];

static void echo(int in, int out) {
    for (ssize_t count; (count = read(in, bytes, sizeof bytes)) > 0;)
        for (ssize_t at = 0, n; at < count; at += n)
            if ((n = write(out, bytes + at, (size_t)(count - at))) < 0) _exit(1);
    _exit(0);
}

static double now(void) {
    struct timespec time;
    clock_gettime(CLOCK_MONOTONIC, &time);
    return 1e6 * (double)time.tv_sec + (double)time.tv_nsec / 1e3;
}

static double there_and_back(int out, int in, ssize_t size) {
    double begun = now();
    for (ssize_t sent = 0, got = 0; got < size;) {
        ssize_t n = sent < size ? write(out, bytes + sent, (size_t)(size - sent)) : 0;
        if (n > 0) sent += n;
        ssize_t m = read(in, bytes, sizeof bytes);
        if (m > 0) got += m;
        else if (n <= 0) sched_yield();
    }
    return now() - begun;
}

static int by_size(const void *a, const void *b) {
    double x = *(const double *)a, y = *(const double *)b;
    return (x > y) - (x < y);
}

int main(void) {
    static const int SIZES[] = {88, 96, 8280, MOST};
    static double took[TIMES];
    int to[2], from[2];
    if (pipe(to) || pipe(from)) return 1;
    pid_t child = fork();
    if (child < 0) return 1;
    if (!child) {
        close(to[1]);
        close(from[0]);
        echo(to[0], from[1]);
    }
    close(to[0]);
    close(from[1]);
    fcntl(to[1], F_SETFL, O_NONBLOCK);
    fcntl(from[0], F_SETFL, O_NONBLOCK);
    for (size_t i = 0; i < sizeof SIZES / sizeof *SIZES; i++) {
        for (int k = 0; k < TIMES; k++) took[k] = there_and_back(to[1], from[0], SIZES[i]);
        qsort(took, TIMES, sizeof *took, by_size);
        printf("%d %.1f\n", SIZES[i], took[TIMES / 2]);
    }
    close(to[1]);
    waitpid(child, NULL, 0);
    return 0;
}
