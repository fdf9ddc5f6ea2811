/* One rank of a job in each process of an MPI job.
 *
 *   mpirun -n RANKS mpi_rank [--late RANK MS] [--shuffle SEED] [--times MS] PORTALS_RANK TEXT
 *
 * A rank is the program PORTALS_RANK, a child on two pipes, which every process can start; here its frames are carried, and
 * nothing is known of what is in them (docs/RANKS.md has their form). TEXT is the path of a description, perhaps with a plan
 * for it behind it, which process 0 can read, and RANKS the number on its second line. At the end process 0 writes the text
 * that `portals_run once` or `portals_plan once` writes, and then the line of each rank's order.
 *
 * What the ranks rely on: between two of them messages arrive in the order in which they were sent, unchanged and from whom MPI
 * says. All go by one tag and one communicator, and each is received as soon as it is probed, on one thread.
 *
 * --late holds a rank's start so many milliseconds; messages may reach it before. --shuffle holds each message a random time,
 * after those that its pair has held. --times holds all starts so long, and tells on standard error how long the ranks then took.
 *
 * A fault is a line on standard error and a status by MPI_Abort: 2 the command, 5 the output, 6 no memory, the child's own
 * status where it ended by itself with one, else 1. The child has ended then. What every process finds, process 0 tells. */
#define _GNU_SOURCE
#include <errno.h>
#include <fcntl.h>
#include <limits.h>
#include <mpi.h>
#include <poll.h>
#include <sched.h>
#include <signal.h>
#include <spawn.h>
#include <stdarg.h>
#include <stdbool.h>
#include <stdint.h>
#include <stdio.h>
#include <stdlib.h>
#include <string.h>
#include <sys/wait.h>
#include <time.h>
#include <unistd.h>

enum { MESSAGE, LINES };                                           /* tags */
enum { DONE, OTHER, USAGE, REFUSED, OUTPUT = 5, NO_MEMORY, FLAWED = 8 }; /* statuses */
enum { HEAD = 8, PIECE = 65536, LONGEST_FRAME = 1 << 30, LONGEST_TEXT = 1 << 26 };
enum { PATIENCE = 10 /* s */, LONGEST_HOLD = 20 /* ms */, LONGEST_NAP = 1000 /* us */ };
static const uint32_t NOBODY = UINT32_MAX;

static const char USAGE_LINE[] = "usage: mpi_rank [--late RANK MS] [--shuffle SEED] [--times MS] PORTALS_RANK TEXT";

extern char **environ;

static int rank, ranks;
static const char *program, *path;
static int late_rank = -1, late, hold;
static bool is_timed, is_shuffled;
static uint64_t chance;

/* ---- Faults ----------------------------------------------------------------------------------------------------------- */

static volatile sig_atomic_t child;

static void end_by_signal(int number) {
    if (child > 0) kill(child, SIGKILL);
    _exit(128 + number);
}

__attribute__((noreturn, format(printf, 2, 3))) static void give_up(int status, const char *format, ...) {
    char why[400];
    va_list words;
    va_start(words, format);
    vsnprintf(why, sizeof why, format, words);
    va_end(words);
    if (child > 0) {
        kill(child, SIGKILL);
        waitpid(child, NULL, 0);
        child = 0;
    }
    fprintf(stderr, "mpi_rank: rank %d: %s\n", rank, why);
    MPI_Abort(MPI_COMM_WORLD, status);
    _exit(status);
}

/* Before a fault that every process finds. */
static void leave_it_to_the_first(void) {
    if (rank) sleep(PATIENCE);
}

/* ---- Bytes ------------------------------------------------------------------------------------------------------------ */

/* Those of `at` from `from` up to `to`. */
struct bytes {
    unsigned char *at;
    size_t from, to, room;
};

static size_t count_of(const struct bytes *b) { return b->to - b->from; }

/* Where so many more can be put. */
static unsigned char *room_for(struct bytes *b, size_t count) {
    if (b->to + count > b->room && b->from) {
        if (count_of(b)) memmove(b->at, b->at + b->from, count_of(b));
        b->to -= b->from;
        b->from = 0;
    }
    if (b->to + count > b->room) {
        b->room = 2 * (b->to + count) + PIECE;
        b->at = realloc(b->at, b->room);
        if (!b->at) give_up(NO_MEMORY, "no memory");
    }
    return b->at + b->to;
}

static void put(struct bytes *b, const void *bytes, size_t count) {
    unsigned char *room = room_for(b, count);
    if (count) memcpy(room, bytes, count);
    b->to += count;
}

static void put_number(struct bytes *b, uint32_t number) {
    const unsigned char bytes[4] = {number & 255, number >> 8 & 255, number >> 16 & 255, number >> 24};
    put(b, bytes, sizeof bytes);
}

static void put_head(struct bytes *b, uint32_t who, uint32_t count) {
    put_number(b, who);
    put_number(b, count);
}

static uint32_t number_at(const unsigned char *at) {
    return (uint32_t)at[0] | (uint32_t)at[1] << 8 | (uint32_t)at[2] << 16 | (uint32_t)at[3] << 24;
}

/* ---- The child -------------------------------------------------------------------------------------------------------- */

static int to_child, from_child;
static FILE *said; /* its standard error */
static struct bytes input, output;
static bool has_started, has_ended, is_deaf; /* is_deaf: it reads no more */
static double begun, started, ended, deaf_since;

static void start_child(void) {
    int in[2], out[2];
    pid_t pid;
    char *words[] = {(char *)program, NULL};
    posix_spawn_file_actions_t actions;
    said = tmpfile();
    if (!said || pipe2(in, O_CLOEXEC) || pipe2(out, O_CLOEXEC) || posix_spawn_file_actions_init(&actions))
        give_up(OTHER, "no pipes: %s", strerror(errno));
    /* No connection of MPI's is to stay open in the child when this process ends. */
    if (posix_spawn_file_actions_adddup2(&actions, in[0], 0) || posix_spawn_file_actions_adddup2(&actions, out[1], 1) ||
        posix_spawn_file_actions_adddup2(&actions, fileno(said), 2) || posix_spawn_file_actions_addclosefrom_np(&actions, 3))
        give_up(NO_MEMORY, "no memory");
    int fault = posix_spawnp(&pid, program, &actions, NULL, words, environ);
    if (fault) {
        leave_it_to_the_first();
        give_up(USAGE, "can't start %s: %s", program, strerror(fault));
    }
    child = pid;
    posix_spawn_file_actions_destroy(&actions);
    close(in[0]);
    close(out[1]);
    to_child = in[1];
    from_child = out[0];
    fcntl(to_child, F_SETFL, O_NONBLOCK);
    fcntl(from_child, F_SETFL, O_NONBLOCK);
}

static void nap(long microseconds) {
    const struct timespec time = {0, 1000 * microseconds};
    nanosleep(&time, NULL);
}

/* Gives up where the child has closed a pipe and stays. */
static void be_patient(double since) {
    if (MPI_Wtime() > since + PATIENCE) give_up(OTHER, "%s has closed a pipe, and doesn't end", program);
}

/* The first line that the child said on its standard error. */
static const char *words_of_child(void) {
    static char line[300];
    rewind(said);
    if (fgets(line, sizeof line, said)) line[strcspn(line, "\n")] = 0;
    return line;
}

/* Whether a child that ends so has written why nothing runs. */
static bool is_answer(int status) { return status == REFUSED || status == FLAWED; }

/* The child's status, DONE or that of an answer, when it has closed its output. Any other is a fault. */
static int end_child(void) {
    int status;
    for (double since = MPI_Wtime(); waitpid(child, &status, WNOHANG) != child; nap(LONGEST_NAP)) be_patient(since);
    child = 0;
    if (WIFSIGNALED(status)) give_up(OTHER, "%s was ended by signal %d", program, WTERMSIG(status));
    int own = WEXITSTATUS(status);
    if (has_ended && is_answer(own)) return own;
    if (own == USAGE) leave_it_to_the_first();
    const char *words = words_of_child();
    if (own) give_up(own, "%s ended with status %d%s%s", program, own, *words ? ": " : "", words);
    if (!has_ended) give_up(OTHER, "%s ended before its time", program);
    if (is_deaf) give_up(OTHER, "a message came after its end");
    return DONE;
}

/* Gives the child what its pipe takes. */
static bool feed_child(void) {
    if (!count_of(&input)) return false;
    ssize_t count = write(to_child, input.at + input.from, count_of(&input));
    if (count >= 0) {
        input.from += (size_t)count;
    } else if (errno == EPIPE) {
        if (!is_deaf) deaf_since = MPI_Wtime();
        is_deaf = true;
        input.from = input.to;
    } else if (errno != EAGAIN && errno != EINTR) {
        give_up(OTHER, "the pipe to %s: %s", program, strerror(errno));
    }
    return count > 0;
}

/* Takes what the child has written. */
static bool hear_child(bool *is_closed) {
    bool moved = false;
    for (;;) {
        ssize_t count = read(from_child, room_for(&output, PIECE), PIECE);
        if (count > 0) {
            output.to += (size_t)count;
            moved = true;
            continue;
        }
        if (count == 0) *is_closed = true;
        else if (errno != EAGAIN && errno != EINTR) give_up(OTHER, "the pipe from %s: %s", program, strerror(errno));
        return moved;
    }
}

/* ---- Messages --------------------------------------------------------------------------------------------------------- */

/* One under way from here. */
struct sending {
    MPI_Request request;
    unsigned char *copy;
};

/* One that has come, and is held until a time. */
struct held {
    int source, count;
    double until;
    unsigned char *bytes;
};

static struct sending *sendings;
static struct held *holdings;
static int sending_count, sending_room, held_count, held_room;
static double *held_until; /* the last of each source */
static long sent, received;

static void *more(void *list, int count, int *room, size_t size) {
    if (count < *room) return list;
    *room = 2 * *room + 64;
    list = realloc(list, (size_t)*room * size);
    if (!list) give_up(NO_MEMORY, "no memory");
    return list;
}

static unsigned char *copy_room(int count) {
    unsigned char *room = malloc((size_t)count + 1);
    if (!room) give_up(NO_MEMORY, "no memory");
    return room;
}

static void send(int target, const unsigned char *bytes, int count) {
    sendings = more(sendings, sending_count, &sending_room, sizeof *sendings);
    struct sending *it = &sendings[sending_count++];
    it->copy = copy_room(count);
    memcpy(it->copy, bytes, (size_t)count);
    MPI_Isend(it->copy, count, MPI_BYTE, target, MESSAGE, MPI_COMM_WORLD, &it->request);
    sent++;
}

/* Drops the copies of what has been sent. */
static void sweep(void) {
    int still = 0;
    for (int i = 0; i < sending_count; i++) {
        int done;
        MPI_Test(&sendings[i].request, &done, MPI_STATUS_IGNORE);
        if (done) free(sendings[i].copy);
        else sendings[still++] = sendings[i];
    }
    sending_count = still;
}

/* Sends the frames that are whole, up to the mark of the end. */
static void send_frames(void) {
    while (!has_ended && count_of(&output) >= HEAD) {
        const unsigned char *at = output.at + output.from;
        uint32_t target = number_at(at), count = number_at(at + 4);
        if (target == NOBODY && count == 0) {
            has_ended = true;
            ended = MPI_Wtime();
        } else if (target >= (uint32_t)ranks || count > LONGEST_FRAME) {
            give_up(OTHER, "%s wrote no frame: to %u, %u bytes", program, target, count);
        } else if (count_of(&output) - HEAD < count) {
            return;
        } else {
            send((int)target, at + HEAD, (int)count);
        }
        output.from += HEAD + count;
    }
}

/* Leaves the processor to others meanwhile, which MPI_Wait doesn't. */
static void await(MPI_Request request) {
    int done;
    for (MPI_Test(&request, &done, MPI_STATUS_IGNORE); !done; MPI_Test(&request, &done, MPI_STATUS_IGNORE)) nap(LONGEST_NAP);
}

/* Waits until all processes are here. */
static void meet(void) {
    MPI_Request request;
    for (sweep(); sending_count; sweep()) nap(LONGEST_NAP);
    MPI_Ibarrier(MPI_COMM_WORLD, &request);
    await(request);
}

/* A number below a bound, by xorshift. */
static uint64_t draw(uint64_t bound) {
    chance ^= chance << 13;
    chance ^= chance >> 7;
    chance ^= chance << 17;
    return (chance >> 11) % bound;
}

static void hold_message(int source, int count) {
    holdings = more(holdings, held_count, &held_room, sizeof *holdings);
    struct held *it = &holdings[held_count++];
    double until = MPI_Wtime() + (double)draw(1000 * LONGEST_HOLD) / 1e6;
    if (until > held_until[source]) held_until[source] = until;
    *it = (struct held){source, count, held_until[source], copy_room(count)};
    MPI_Recv(it->bytes, count, MPI_BYTE, source, MESSAGE, MPI_COMM_WORLD, MPI_STATUS_IGNORE);
}

/* Hands on what was held long enough. Those of one source are held in order. */
static bool hand_on(void) {
    int still = 0;
    double now = held_count ? MPI_Wtime() : 0;
    for (int i = 0; i < held_count; i++) {
        struct held *it = &holdings[i];
        if (it->until > now) {
            holdings[still++] = *it;
            continue;
        }
        put_head(&input, (uint32_t)it->source, (uint32_t)it->count);
        put(&input, it->bytes, (size_t)it->count);
        free(it->bytes);
    }
    bool moved = still < held_count;
    held_count = still;
    return moved;
}

/* Receives all that has come. */
static bool receive(void) {
    for (bool moved = false;; moved = true) {
        int is_there, count;
        MPI_Status it;
        MPI_Iprobe(MPI_ANY_SOURCE, MESSAGE, MPI_COMM_WORLD, &is_there, &it);
        if (!is_there) return moved;
        MPI_Get_count(&it, MPI_BYTE, &count);
        received++;
        if (is_shuffled) {
            hold_message(it.MPI_SOURCE, count);
            continue;
        }
        put_head(&input, (uint32_t)it.MPI_SOURCE, (uint32_t)count);
        MPI_Recv(room_for(&input, (size_t)count), count, MPI_BYTE, it.MPI_SOURCE, MESSAGE, MPI_COMM_WORLD, MPI_STATUS_IGNORE);
        input.to += (size_t)count;
    }
}

/* Gives the child its start when that is due. Before a start that is timed all processes wait for each other. */
static bool start_rank(void) {
    if (has_started || MPI_Wtime() < begun + (hold + (rank == late_rank ? late : 0)) / 1000.0) return false;
    if (is_timed && count_of(&input)) return false;
    if (is_timed) {
        meet();
        MPI_Barrier(MPI_COMM_WORLD);
    }
    started = MPI_Wtime();
    put_head(&input, NOBODY, 0);
    return has_started = true;
}

/* Waits for the child, the longer the longer nothing has moved: others may need the processor. */
static void rest(int idle) {
    struct pollfd pipes[] = {{from_child, POLLIN, 0}, {count_of(&input) ? to_child : -1, POLLOUT, 0}};
    long nap = idle < 1000 ? idle : LONGEST_NAP;
    const struct timespec time = {0, 1000 * nap};
    if (idle < 50) sched_yield();
    else ppoll(pipes, 2, &time, NULL);
}

/* Carries frames until the child has closed its output; its status, DONE or that of an answer. */
static int carry(void) {
    int idle = 0;
    for (bool is_closed = false; !is_closed;) {
        bool moved = hear_child(&is_closed);
        send_frames();
        moved |= receive();
        moved |= hand_on();
        moved |= start_rank();
        moved |= feed_child();
        sweep();
        idle = moved ? 0 : idle + 1;
        if (!moved && !is_closed) rest(idle);
        if (is_deaf) be_patient(deaf_since);
    }
    return end_child();
}

/* ---- The description, and the text of the result ------------------------------------------------------------------------ */

/* The number on the second line; 0 where there is none, and PORTALS_RANK refuses the text. */
static long ranks_of(const char *text) {
    const char *line = strchr(text, '\n');
    return line && !strncmp(line, "\nranks ", 7) ? strtol(line + 7, NULL, 10) : 0;
}

static void read_description(struct bytes *text) {
    FILE *file = fopen(path, "rb");
    if (!file) give_up(USAGE, "can't open %s: %s", path, strerror(errno));
    size_t count;
    while ((count = fread(room_for(text, PIECE), 1, PIECE, file)) > 0 && text->to <= LONGEST_TEXT) text->to += count;
    if (ferror(file)) give_up(USAGE, "can't read %s: %s", path, strerror(errno));
    if (text->to > LONGEST_TEXT) give_up(USAGE, "%s is too long", path);
    fclose(file);
    *room_for(text, 1) = 0;
    long wanted = ranks_of((const char *)text->at);
    if (wanted > 0 && wanted != ranks)
        give_up(USAGE, "%d process%s for the %ld ranks of %s", ranks, ranks == 1 ? "" : "es", wanted, path);
}

/* Gives every process the text of process 0. */
static void share(struct bytes *text) {
    int count = (int)text->to;
    MPI_Request request;
    MPI_Ibcast(&count, 1, MPI_INT, 0, MPI_COMM_WORLD, &request);
    await(request);
    MPI_Ibcast(room_for(text, rank ? (size_t)count : 0) - text->to, count, MPI_BYTE, 0, MPI_COMM_WORLD, &request);
    await(request);
    text->to = (size_t)count;
}

/* What process 0 is told of a rank, beside its lines. */
enum { SENT, RECEIVED, TOOK, COUNTS };

/* Whether all that was sent was received; and the time, if it is asked for. */
static void look_back(double (*counts)[COUNTS]) {
    double all_sent = 0, all_received = 0, most = 0;
    for (int r = 0; r < ranks; r++) {
        all_sent += counts[r][SENT];
        all_received += counts[r][RECEIVED];
        if (counts[r][TOOK] > most) most = counts[r][TOOK];
    }
    if (all_sent != all_received) give_up(OTHER, "%.0f messages were sent, and %.0f received", all_sent, all_received);
    if (is_timed) fprintf(stderr, "mpi_rank: %.0f messages, %.0f us from the starts to the last end\n", all_sent, 1e6 * most);
}

static void receive_lines(int source, struct bytes *lines, double *counts) {
    int count;
    MPI_Status it;
    MPI_Recv(counts, COUNTS, MPI_DOUBLE, source, LINES, MPI_COMM_WORLD, MPI_STATUS_IGNORE);
    MPI_Probe(source, LINES, MPI_COMM_WORLD, &it);
    MPI_Get_count(&it, MPI_BYTE, &count);
    MPI_Recv(room_for(lines, (size_t)count), count, MPI_BYTE, source, LINES, MPI_COMM_WORLD, MPI_STATUS_IGNORE);
    lines->to = (size_t)count;
}

/* At process 0 the lines of each rank. */
static struct bytes *gather(void) {
    double mine[COUNTS] = {(double)sent, (double)received, ended - started};
    if (count_of(&output) > INT_MAX) give_up(OUTPUT, "more than 2 GB of lines");
    if (rank) {
        MPI_Request request;
        MPI_Send(mine, COUNTS, MPI_DOUBLE, 0, LINES, MPI_COMM_WORLD);
        MPI_Isend(output.at + output.from, (int)count_of(&output), MPI_BYTE, 0, LINES, MPI_COMM_WORLD, &request);
        await(request);
        return NULL;
    }
    struct bytes *all = calloc((size_t)ranks, sizeof *all);
    double(*counts)[COUNTS] = calloc((size_t)ranks, sizeof *counts);
    if (!all || !counts) give_up(NO_MEMORY, "no memory");
    all[0] = output;
    memcpy(counts[0], mine, sizeof mine);
    for (int r = 1; r < ranks; r++) receive_lines(r, &all[r], counts[r]);
    look_back(counts);
    free(counts);
    return all;
}

/* Writes the next line of each rank. */
static void write_row(struct bytes *all) {
    for (int r = 0; r < ranks; r++) {
        unsigned char *at = all[r].at + all[r].from, *end = count_of(&all[r]) ? memchr(at, '\n', count_of(&all[r])) : NULL;
        if (!end) give_up(OTHER, "rank %d lacks a line", r);
        fwrite(at, 1, (size_t)(end + 1 - at), stdout);
        all[r].from += (size_t)(end + 1 - at);
    }
}

/* The last line of each rank is that of its order; each of the others is of the same buffer at each rank. */
static void write_text(struct bytes *all) {
    int rows = 0;
    if (!all) return;
    for (size_t i = all[0].from; i < all[0].to; i++) rows += all[0].at[i] == '\n';
    for (int i = 1; i < rows; i++) write_row(all);
    fputs("rest\n", stdout);
    write_row(all);
    for (int r = 0; r < ranks; r++)
        if (count_of(&all[r])) give_up(OTHER, "rank %d has a line too many", r);
    if (fflush(stdout) || ferror(stdout)) give_up(OUTPUT, "can't write: %s", strerror(errno));
}

/* A text that is refused, or whose plan has a flaw, is so at each rank. */
static void write_answer(void) {
    fwrite(output.at + output.from, 1, count_of(&output), stdout);
    if (fflush(stdout) || ferror(stdout)) give_up(OUTPUT, "can't write: %s", strerror(errno));
    fprintf(stderr, "mpi_rank: %s\n", words_of_child());
}

/* ---- The command ------------------------------------------------------------------------------------------------------ */

__attribute__((noreturn)) static void give_up_by_usage(void) {
    leave_it_to_the_first();
    give_up(USAGE, "%s", USAGE_LINE);
}

static uint64_t number_of(const char *word, uint64_t most) {
    char *end;
    errno = 0;
    uint64_t number = word ? strtoull(word, &end, 10) : 0;
    if (!word || *word < '0' || *word > '9' || *end || errno || number > most) give_up_by_usage();
    return number;
}

static void read_words(char **word) {
    for (; *++word && !strncmp(*word, "--", 2);) {
        if (!strcmp(*word, "--late")) {
            late_rank = (int)number_of(*++word, (uint64_t)ranks - 1);
            late = (int)number_of(*++word, INT_MAX / 2);
        } else if (!strcmp(*word, "--shuffle")) {
            is_shuffled = true;
            chance = number_of(*++word, UINT64_MAX) << 17 | (uint64_t)rank << 1 | 1;
        } else if (!strcmp(*word, "--times")) {
            is_timed = true;
            hold = (int)number_of(*++word, INT_MAX / 2);
        } else {
            give_up_by_usage();
        }
    }
    if (!word[0] || !word[1] || word[2]) give_up_by_usage();
    program = word[0];
    path = word[1];
}

int main(int argc, char **argv) {
    struct bytes text = {0};
    MPI_Init(&argc, &argv);
    MPI_Comm_rank(MPI_COMM_WORLD, &rank);
    MPI_Comm_size(MPI_COMM_WORLD, &ranks);
    signal(SIGPIPE, SIG_IGN);
    signal(SIGTERM, end_by_signal);
    signal(SIGINT, end_by_signal);
    read_words(argv);
    held_until = calloc((size_t)ranks, sizeof *held_until);
    if (!held_until) give_up(NO_MEMORY, "no memory");
    if (!rank) read_description(&text);
    share(&text);
    begun = MPI_Wtime();
    start_child();
    put_head(&input, (uint32_t)rank, (uint32_t)text.to);
    put(&input, text.at, text.to);
    free(text.at);
    int status = carry();
    meet();
    if (is_answer(status) && !rank) write_answer();
    if (status == DONE) write_text(gather());
    meet();
    MPI_Finalize();
    return rank ? 0 : status;
}
