/* Changes plans at random, has `portals_plan verify` and `portals_plan verify given` judge each, and makes runs of it in random orders
   (plan_runs.h).

       mutants PORTALS_PLAN COUNT SEED TEXT ..

   TEXTs are files with a description and a plan of it. Mutant N of a seed is mutant 0 of the seed SEED + N. `mutants`, the script beside
   this file, compiles it and says what is held against what. */
#include "plan_runs.h"

#include <fcntl.h>
#include <limits.h>
#include <spawn.h>
#include <sys/mman.h>
#include <sys/wait.h>
#include <unistd.h>

enum { ORDERS = 20, TEXT = 1 << 17 };

/* ---- changes */
enum {
    DROP, DOUBLE, REDIRECT, SOURCE, SHIFT, START, LENGTH, OPERATION, NEEDS, EXCHANGE, LINK_KIND, ELEMENTS, ORDER, DONE, MARK_CELL, CHANGES
};
static const char *const CHANGE[] = {"drop", "double", "redirect", "source", "shift", "start", "length", "operation", "needs", "exchange",
                                     "kind", "elements", "order", "done", "mark"};

static int at_least_zero(int x) { return x < 0 ? 0 : x; }

/* Links by their targets, those of one target in the order that they have. */
static void sort_links(Plan *p) {
    for (int i = 1; i < p->links; i++) {
        Link it = p->link[i];
        int j = i;
        for (; j > 0 && p->link[j - 1].target > it.target; j--) p->link[j] = p->link[j - 1];
        p->link[j] = it;
    }
}

/* Needs and thresholds as the links ask for them. */
static void settle(Plan *p) {
    memset(p->done, 0, sizeof p->done);
    for (int c = 0; c < p->cells; c++) {
        p->cell[c].needs = c < p->ranks;
        p->done[p->cell[c].rank]++;
    }
    for (int l = 0; l < p->links; l++) {
        p->cell[p->link[l].target].needs++;
        if (p->remote && p->link[l].kind != BUMP) p->done[p->cell[p->link[l].source].rank]++;
    }
}

/* A cell from `first` on and before `after`, half of the time on this rank if there is one. */
static int any_cell(const Plan *p, int first, int after, int rank) {
    int at[CELLS], count = 0;
    bool same = below(2);
    for (int c = first; c < after; c++)
        if (!same || p->cell[c].rank == rank) at[count++] = c;
    return count ? at[below(count)] : first + below(after - first);
}

/* Two lines of one kind name each other's cell. */
static void exchange(Plan *p) {
    Mark *one = &p->mark[below(p->marks)], *other = &p->mark[below(p->marks)];
    if ((one->what == RESULT) != (other->what == RESULT)) return;
    int cell = one->cell;
    one->cell = other->cell;
    other->cell = cell;
}

static void change_link(Plan *p, int kind) {
    static const int far[] = {-8, -4, -2, -1, 1, 2, 4, 8};
    int l = below(p->links);
    Link *it = &p->link[l];
    switch (kind) {
    case DROP: memmove(it, it + 1, (size_t)(--p->links - l) * sizeof *it); break;
    case DOUBLE: memmove(it + 1, it, (size_t)(p->links++ - l) * sizeof *it); break;
    case REDIRECT: if (it->source + 1 < p->cells) it->target = any_cell(p, it->source + 1, p->cells, p->cell[it->target].rank); break;
    case SOURCE: if (it->target > 0) it->source = any_cell(p, 0, it->target, p->cell[it->source].rank); break;
    case SHIFT: it->to = at_least_zero(it->to + far[below(8)]); break;
    case START: it->start = at_least_zero(it->start + far[below(8)]); break;
    case LENGTH: it->length = at_least_zero(it->length + far[below(8)]); break;
    case LINK_KIND: it->kind = below(3); break;
    case ORDER: if (l > 0 && it[-1].target == it->target) { Link other = it[-1]; it[-1] = *it; *it = other; } break;
    }
}

static int changed(Plan *p) {
    int kind = below(CHANGES);
    Cell *cell = &p->cell[below(p->cells)];
    if (p->links == 0 || (p->marks == 0 && (kind == EXCHANGE || kind == MARK_CELL))) return kind;
    if (kind == OPERATION) {
        for (int tries = 0; tries < 8 && cell->op == NO_OP; tries++) cell = &p->cell[below(p->cells)];
        cell->op = below(10) ? below(10) : NO_OP;
    } else if (kind == ELEMENTS) cell->type = below(2) ? cell->type ^ 1 : below(8);
    else if (kind == EXCHANGE) exchange(p);
    else if (kind == MARK_CELL) { Mark *m = &p->mark[below(p->marks)]; m->cell = any_cell(p, 0, p->cells, m->rank); }
    else if (kind == DONE) p->done[below(p->ranks)] += below(2) ? 1 : -1;
    else if (kind == NEEDS) cell->needs = at_least_zero(cell->needs + (below(2) ? 1 : -1));
    else change_link(p, kind);
    sort_links(p);
    if (kind != NEEDS && kind != DONE && below(8)) settle(p);
    for (int r = 0; r < p->ranks; r++) p->done[r] = at_least_zero(p->done[r]);
    return kind;
}

/* ---- the program's answers */
static int text_file, answer_file;

static void ask(const char *program, bool given, const char *text, size_t length, char *answer, size_t room) {
    char *words[] = {"portals_plan", "verify", given ? "given" : NULL, NULL};
    extern char **environ;
    posix_spawn_file_actions_t files;
    pid_t child;
    int status;
    if (ftruncate(text_file, 0) || ftruncate(answer_file, 0)) give_up("can't empty", "a file");
    if (pwrite(text_file, text, length, 0) != (ssize_t)length) give_up("can't write", "a text");
    lseek(text_file, 0, SEEK_SET);
    lseek(answer_file, 0, SEEK_SET);
    posix_spawn_file_actions_init(&files);
    posix_spawn_file_actions_adddup2(&files, text_file, 0);
    posix_spawn_file_actions_adddup2(&files, answer_file, 1);
    posix_spawn_file_actions_addopen(&files, 2, "/dev/null", O_WRONLY, 0);
    if (posix_spawn(&child, program, &files, NULL, words, environ)) give_up("can't start", program);
    posix_spawn_file_actions_destroy(&files);
    if (waitpid(child, &status, 0) != child) give_up("can't wait for", program);
    ssize_t got = pread(answer_file, answer, room - 1, 0);
    answer[got > 0 ? got : 0] = 0;
    bool holds = !strcmp(answer, "holds\n");
    bool is_line = got > 0 && answer[got - 1] == '\n' && WIFEXITED(status) && WEXITSTATUS(status) == (holds ? 0 : 3);
    if (!is_line) snprintf(answer, room, "status %d", status);
    answer[strcspn(answer, "\n")] = 0;
}

/* ---- counts */
typedef struct { char what[64]; long count; } Count;
static Count counts[256];
static int many_counts;

__attribute__((format(printf, 1, 2))) static void tally(const char *how, ...) {
    char what[64];
    va_list rest;
    va_start(rest, how);
    vsnprintf(what, sizeof what, how, rest);
    va_end(rest);
    for (int i = 0; i < many_counts; i++)
        if (!strcmp(counts[i].what, what)) {
            counts[i].count++;
            return;
        }
    if (many_counts == 256) give_up("too many counts", what);
    snprintf(counts[many_counts].what, sizeof counts[0].what, "%s", what);
    counts[many_counts++].count = 1;
}

static int by_name(const void *a, const void *b) { return strcmp(((const Count *)a)->what, ((const Count *)b)->what); }

static void tell_counts(long mutants, long seed) {
    qsort(counts, (size_t)many_counts, sizeof *counts, by_name);
    printf("%ld mutants of seed %ld\n", mutants, seed);
    for (int i = 0; i < many_counts; i++) printf("  %-62s %9ld\n", counts[i].what, counts[i].count);
    fflush(stdout);
}

static long findings;

__attribute__((format(printf, 3, 4))) static void find(const char *text, uint64_t seed, const char *how, ...) {
    char name[64];
    va_list rest;
    snprintf(name, sizeof name, "mutant_%llu.txt", (unsigned long long)seed);
    FILE *file = fopen(name, "w");
    if (file) {
        fputs(text, file);
        fclose(file);
    }
    printf("%s: ", name);
    va_start(rest, how);
    vprintf(how, rest);
    va_end(rest);
    printf("\n");
    fflush(stdout);
    findings++;
}

/* ---- one mutant */
typedef struct { int wrong, early, at, place; bool same; char fault[160]; } Runs; /* same: each was wrong in this result */

static Runs make_runs(const Plan *p, bool given) {
    Runs all = {.at = -1, .place = -1, .same = true};
    for (int n = 0; n < ORDERS; n++) {
        int at, place;
        if (!given) {
            shuffle_inputs();
            means();
        }
        one_run(p, &at, &place);
        all.early += run.is_early;
        if (run.fault[0] && all.wrong++ == 0) {
            all.at = at;
            all.place = place;
            strcpy(all.fault, run.fault);
        }
        all.same &= at == all.at && place == all.place && at >= 0;
    }
    return all;
}

/* The word at a place of a line. */
static const char *word_at(const char *line, int n) {
    while (n-- > 0 && *line) line += strcspn(line, " "), line += *line == ' ';
    return line;
}

static bool begins(const char *text, const char *word) { return !strncmp(text, word, strlen(word)); }

static void hold_given(const Plan *p, const char *text, int head, uint64_t seed, const char *said, const Runs *runs) {
    bool holds = !strcmp(said, "holds"), fails = begins(said, "fails"), differs = fails && begins(word_at(said, 2), "Value");
    int line = 0;
    char due[200];
    for (const char *at = text; at < text + head; at++) line += *at == '\n';
    if (holds && runs->wrong) find(text, seed, "given: %s, but %d orders go wrong: %s", said, runs->wrong, runs->fault);
    if (!holds && !fails) find(text, seed, "given: %s", said);
    if (!differs) return;
    if (runs->at < 0) return find(text, seed, "given: %s, but no order shows it: %s", said, runs->fault);
    const Mark *m = &p->mark[runs->at];
    line += 2 + p->cells + p->links + p->ranks + runs->at;
    snprintf(due, sizeof due, "fails %d Value %s %d %d", line, told.buffer[m->of].name, m->rank, runs->place);
    if (strcmp(said, due) || !runs->same) find(text, seed, "given: %s, but the orders end with %s", said, due);
}

static void hold_both(const char *text, uint64_t seed, const char *said, const char *given) {
    bool holds = !strcmp(said, "holds"), differs = begins(word_at(said, 2), "Value"), given_differs = begins(word_at(given, 2), "Value");
    if (holds && strcmp(given, "holds")) find(text, seed, "%s, but given: %s", said, given);
    if (!holds && !differs && strcmp(said, given)) find(text, seed, "%s, but given: %s", said, given);
    if (given_differs && !(begins(said, "fails") && differs)) {
        if (begins(said, "unknown")) tally("all: unknown, given fails");
        else find(text, seed, "%s, but given: %s", said, given);
    }
}

/* Counts an answer by its first word and its cause. */
static void tally_answer(const char *form, const char *said, bool is_wrong) {
    const char *cause = word_at(said, 2);
    tally("%s: %.*s %.*s%s", form, (int)strcspn(said, " "), said, (int)strcspn(cause, " "), cause, is_wrong ? "  (goes wrong)" : "");
}

static void judge(const char *program, const char *base, uint64_t seed) {
    static char text[TEXT];
    static Plan plan;
    char said[200], given[200];
    const char *middle = strstr(base, "\nplan ") + 1;
    int head = (int)(middle - base), kind = 0;
    take_description(base);
    take_plan(&plan, middle);
    for (int n = below(3) ? 1 : 2; n > 0; n--) kind = changed(&plan);
    memcpy(text, base, (size_t)head);
    size_t length = (size_t)(write_plan(&plan, text + head) - text);
    ask(program, false, text, length, said, sizeof said);
    ask(program, true, text, length, given, sizeof given);
    means();
    Runs same = make_runs(&plan, true);
    hold_given(&plan, text, head, seed, given, &same);
    Runs others = make_runs(&plan, false);
    tally_answer("all", said, others.wrong > 0);
    tally_answer("given", given, same.wrong > 0);
    tally("changed last: %s%s", CHANGE[kind], begins(said, "holds") ? ", holds" : "");
    if (!reads_made(&plan)) tally_answer("no operation reads another's", said, others.wrong > 0);
    if (others.early && begins(said, "holds")) tally("all: holds, but a cell acts before its rank starts");
    if (others.wrong && !begins(said, "fails")) {
        if (begins(said, "unknown")) tally("all: unknown, though it goes wrong");
        else find(text, seed, "%s, but %d orders go wrong: %s", said, others.wrong, others.fault);
    }
    if (!begins(said, "holds") && !begins(said, "fails") && !begins(said, "unknown")) find(text, seed, "%s", said);
    hold_both(text, seed, said, given);
}

static char *whole_file(const char *name) {
    FILE *file = fopen(name, "r");
    char *text = calloc(1, TEXT);
    if (!file || !text) give_up("can't read", name);
    size_t length = fread(text, 1, TEXT - 1, file);
    if (length > TEXT / 2 || !strstr(text, "\nplan ")) give_up("no text of a plan, or too long", name);
    fclose(file);
    return text;
}

int main(int count, char **words) {
    if (count < 5) give_up("usage", "mutants PORTALS_PLAN COUNT SEED TEXT ..");
    long mutants = atol(words[2]), seed = atol(words[3]);
    int bases = count - 4;
    char **base = calloc((size_t)bases, sizeof *base), program[PATH_MAX];
    for (int i = 0; i < bases; i++) base[i] = whole_file(words[4 + i]);
    if (!realpath(words[1], program)) give_up("no program", words[1]);
    text_file = memfd_create("text", MFD_CLOEXEC);
    answer_file = memfd_create("answer", MFD_CLOEXEC);
    if (text_file < 0 || answer_file < 0) give_up("no memory file", "memfd_create");
    for (long n = 0; n < mutants; n++) {
        chance_state = (uint64_t)(seed + n);
        judge(program, base[below(bases)], (uint64_t)(seed + n));
        if ((n + 1) % 10000 == 0 && n + 1 < mutants) tell_counts(n + 1, seed);
    }
    tell_counts(mutants, seed);
    printf("%ld mutants of %d plans, %d orders each for either form: %ld findings\n", mutants, bases, ORDERS, findings);
    return findings > 0;
}
