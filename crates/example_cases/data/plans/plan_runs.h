/* What a description means, and runs of a given plan in random orders, read from docs/LANGUAGE.md and docs/PLANS.md alone: this shares
   nothing with the programs of this repository. For `mutants.c`; texts are right, and of at most 16 ranks. */
#define _GNU_SOURCE
#include <stdarg.h>
#include <stdbool.h>
#include <stdint.h>
#include <stdio.h>
#include <stdlib.h>
#include <string.h>

enum { RANKS = 16, BUFFERS = 16, STEPS = 16, LIST = 4096, CELLS = 512, LINKS = 1024, MARKS = 512, MEMORY = 1 << 18 };

static void give_up(const char *why, const char *what) {
    fprintf(stderr, "mutants: %s: %s\n", why, what);
    exit(2);
}

/* ---- chance: splitmix64 */
static uint64_t chance_state;

static uint64_t chance(void) {
    uint64_t z = chance_state += 0x9E3779B97F4A7C15u;
    z = (z ^ z >> 30) * 0xBF58476D1CE4E5B9u;
    z = (z ^ z >> 27) * 0x94D049BB133111EBu;
    return z ^ z >> 31;
}

static int below(int n) { return (int)(chance() % (uint64_t)n); }

/* ---- types and operations */
static const char *const TYPES[] = {"u8", "i8", "u16", "i16", "u32", "i32", "u64", "i64"};
static const char *const OPS[] = {"min", "max", "sum", "prod", "lor", "land", "bor", "band", "lxor", "bxor"};
enum { MIN, MAX, SUM, PROD, LOR, LAND, BOR, BAND, LXOR, BXOR, NO_OP = -1 };

static int number_of(const char *const *words, int count, const char *word) {
    for (int i = 0; i < count; i++)
        if (!strcmp(words[i], word)) return i;
    return -1;
}

static int width(int type) { return 1 << type / 2; }
static bool is_signed(int type) { return type % 2; }

/* An element is kept as its bits, with zeros above its width. */
static uint64_t bits_of(int type, uint64_t x) { return width(type) == 8 ? x : x & ((UINT64_C(1) << 8 * width(type)) - 1); }

static int64_t as_signed(int type, uint64_t x) {
    int above = 64 - 8 * width(type);
    return (int64_t)(x << above) >> above;
}

static bool is_less(int type, uint64_t x, uint64_t y) { return is_signed(type) ? as_signed(type, x) < as_signed(type, y) : x < y; }

static uint64_t least(int type) { return is_signed(type) ? UINT64_C(1) << (8 * width(type) - 1) : 0; }
static uint64_t most(int type) { return bits_of(type, is_signed(type) ? least(type) - 1 : UINT64_MAX); }

static uint64_t combine(int op, int type, uint64_t x, uint64_t y) {
    switch (op) {
    case MIN: return is_less(type, y, x) ? y : x;
    case MAX: return is_less(type, x, y) ? y : x;
    case SUM: return bits_of(type, x + y);
    case PROD: return bits_of(type, x * y);
    case LOR: return x || y;
    case LAND: return x && y;
    case BOR: return x | y;
    case BAND: return x & y;
    case LXOR: return !x != !y;
    default: return x ^ y;
    }
}

static uint64_t starting(int op, int type) {
    switch (op) {
    case MIN: return most(type);
    case MAX: return least(type);
    case PROD: case LAND: return 1;
    case BAND: return bits_of(type, UINT64_MAX);
    default: return 0;
    }
}

static uint64_t read_element(const uint8_t *at, int type) {
    uint64_t x = 0;
    memcpy(&x, at, (size_t)width(type)); /* of a machine whose lowest byte comes first */
    return x;
}

static void write_element(uint8_t *at, int type, uint64_t x) { memcpy(at, &x, (size_t)width(type)); }

/* ---- descriptions */
typedef struct { int length; uint64_t at[LIST]; } List;
typedef struct { char name[20]; int type; bool is_input; List lists[RANKS]; } Buffer;
typedef struct { int members[RANKS], count; char name[20]; } Group;
typedef struct { char word[20]; Group on; int root, op, from, to; } Step;

static struct {
    int ranks, buffers, steps, prints, groups;
    Buffer buffer[BUFFERS];
    Step step[STEPS];
    int print[BUFFERS];
    Group group[BUFFERS];
} told; /* the description, and what it means once `means` has run */

typedef struct { char text[4096], *at[LIST + 8]; int count; } Words;

/* The words of the next line. */
static const char *words_of(const char *line, Words *w) {
    size_t length = strcspn(line, "\n");
    if (length >= sizeof w->text) give_up("a line is too long", "a description");
    memcpy(w->text, line, length);
    w->text[length] = 0;
    w->count = 0;
    for (char *word = strtok(w->text, " "); word; word = strtok(NULL, " ")) w->at[w->count++] = word;
    return line + length + 1;
}

static int buffer_of(const char *name) {
    for (int b = 0; b < told.buffers; b++)
        if (!strcmp(told.buffer[b].name, name)) return b;
    give_up("no such buffer", name);
    return 0;
}

static int new_buffer(const char *name, int type, bool is_input) {
    if (told.buffers == BUFFERS) give_up("too many buffers", name);
    Buffer *b = &told.buffer[told.buffers];
    snprintf(b->name, sizeof b->name, "%s", name);
    b->type = type;
    b->is_input = is_input;
    return told.buffers++;
}

static const char *take_input(const char *text, Words *w) {
    Buffer *b = &told.buffer[new_buffer(w->at[1], number_of(TYPES, 8, w->at[2]), true)];
    for (int r = 0; r < told.ranks; r++) {
        text = words_of(text, w);
        b->lists[r].length = w->count;
        for (int i = 0; i < w->count; i++)
            b->lists[r].at[i] = bits_of(b->type, w->at[i][0] == '-' ? (uint64_t)strtoll(w->at[i], NULL, 10) : strtoull(w->at[i], NULL, 10));
    }
    return text;
}

static void take_group(Words *w) {
    Group *g = &told.group[told.groups++];
    snprintf(g->name, sizeof g->name, "%s", w->at[1]);
    g->count = w->count - 2;
    for (int i = 0; i < g->count; i++) g->members[i] = atoi(w->at[i + 2]);
}

static void take_step(Words *w) {
    Step *s = &told.step[told.steps++];
    int at = 0;
    s->on.count = told.ranks;
    for (int r = 0; r < told.ranks; r++) s->on.members[r] = r;
    if (!strcmp(w->at[0], "on")) {
        for (int g = 0; g < told.groups; g++)
            if (!strcmp(told.group[g].name, w->at[1])) s->on = told.group[g];
        at = 2;
    }
    snprintf(s->word, sizeof s->word, "%s", w->at[at++]);
    s->root = 0;
    s->op = NO_OP;
    if (!strcmp(s->word, "barrier")) return;
    for (; at < w->count - 2; at++) {
        if (w->at[at][0] >= '0' && w->at[at][0] <= '9') s->root = atoi(w->at[at]);
        else s->op = number_of(OPS, 10, w->at[at]);
    }
    s->from = buffer_of(w->at[at]);
    s->to = new_buffer(w->at[at + 1], told.buffer[s->from].type, false);
}

static void take_description(const char *text) {
    Words w;
    told.ranks = told.buffers = told.steps = told.prints = told.groups = 0;
    for (;;) {
        text = words_of(text, &w);
        if (!strcmp(w.at[0], "end")) return;
        if (!strcmp(w.at[0], "ranks")) told.ranks = atoi(w.at[1]);
        else if (!strcmp(w.at[0], "group")) take_group(&w);
        else if (!strcmp(w.at[0], "input")) text = take_input(text, &w);
        else if (!strcmp(w.at[0], "print")) told.print[told.prints++] = buffer_of(w.at[1]);
        else if (strcmp(w.at[0], "coll") && strcmp(w.at[0], "complete")) take_step(&w);
        bool is_large = told.ranks > RANKS || told.steps == STEPS || told.prints == BUFFERS || told.groups == BUFFERS;
        if (is_large) give_up("too large", "a description");
    }
}

static void append(List *to, const List *from, int first, int count) {
    if (to->length + count > LIST) give_up("too long", "a list");
    memcpy(to->at + to->length, from->at + first, (size_t)count * sizeof *to->at);
    to->length += count;
}

/* The fold of the lists at places 0 to `count` - 1. */
static void fold(List *to, const Step *s, int count) {
    const Buffer *a = &told.buffer[s->from];
    to->length = a->lists[s->on.members[0]].length;
    for (int i = 0; i < to->length; i++) {
        to->at[i] = starting(s->op, a->type);
        for (int place = 0; place < count; place++) to->at[i] = combine(s->op, a->type, to->at[i], a->lists[s->on.members[place]].at[i]);
    }
}

/* What a step leaves at one place. */
static void left_at(const Step *s, int place, List *b) {
    const List *lists = told.buffer[s->from].lists;
    const int *on = s->on.members, count = s->on.count;
    const char *word = s->word;
    bool at_root = place == s->root;
    b->length = 0;
    if (!strcmp(word, "broadcast")) append(b, &lists[on[s->root]], 0, lists[on[s->root]].length);
    else if (!strcmp(word, "allreduce") || (!strcmp(word, "reduce") && at_root)) fold(b, s, count);
    else if (!strcmp(word, "scan")) fold(b, s, place + 1);
    else if (!strcmp(word, "exscan") && place > 0) fold(b, s, place);
    else if (!strcmp(word, "allgather") || ((!strcmp(word, "gather") || !strcmp(word, "gatherv")) && at_root)) {
        for (int q = 0; q < count; q++) append(b, &lists[on[q]], 0, lists[on[q]].length);
    } else if (!strcmp(word, "alltoall")) {
        int m = lists[on[0]].length / count;
        for (int q = 0; q < count; q++) append(b, &lists[on[q]], place * m, m);
    } else if (!strcmp(word, "scatter")) {
        int m = lists[on[s->root]].length / count;
        append(b, &lists[on[s->root]], place * m, m);
    } else if (!strcmp(word, "reducescatter")) {
        static List whole;
        fold(&whole, s, count);
        append(b, &whole, place * (whole.length / count), whole.length / count);
    }
}

/* What the description means: each buffer's list at each rank. */
static void means(void) {
    for (int n = 0; n < told.steps; n++) {
        const Step *s = &told.step[n];
        if (!strcmp(s->word, "barrier")) continue;
        for (int r = 0; r < told.ranks; r++) told.buffer[s->to].lists[r].length = 0;
        for (int place = 0; place < s->on.count; place++) left_at(s, place, &told.buffer[s->to].lists[s->on.members[place]]);
    }
}

/* Other elements in all inputs, some of them at the ends of their type. */
static void shuffle_inputs(void) {
    int kind = below(4);
    for (int b = 0; b < told.buffers; b++)
        for (int r = 0; told.buffer[b].is_input && r < told.ranks; r++)
            for (int i = 0, type = told.buffer[b].type; i < told.buffer[b].lists[r].length; i++) {
                uint64_t few[] = {0, 1, least(type), most(type), chance()};
                told.buffer[b].lists[r].at[i] = bits_of(type, kind == 0 ? chance() : kind == 1 ? chance() % 3 : few[below(5)]);
            }
}

/* ---- plans */
enum { PUT, ATOMIC, BUMP };
static const char *const KINDS[] = {"put", "atomic", "bump"};
enum { RESULT, ENTER, LEAVE };
typedef struct { int rank, type, op, length, needs; } Cell;
typedef struct { int source, start, length, target, to, kind; } Link;
typedef struct { int what, of, rank, cell; } Mark; /* `of` is a buffer or a step */
typedef struct { int ranks, cells, links, marks; bool remote; Cell cell[CELLS]; Link link[LINKS]; int done[RANKS]; Mark mark[MARKS]; } Plan;

static void take_plan(Plan *p, const char *text) {
    Words w;
    p->cells = p->links = p->marks = 0;
    for (int rank = 0;;) {
        text = words_of(text, &w);
        int n[8] = {0};
        for (int i = 1; i < w.count && i < 8; i++) n[i] = atoi(w.at[i]);
        if (!strcmp(w.at[0], "end")) return;
        if (!strcmp(w.at[0], "plan")) {
            p->ranks = n[1];
            p->remote = !strcmp(w.at[4], "remote");
            if (n[2] >= CELLS || n[3] >= LINKS - 8) give_up("too large", "a plan");
        } else if (!strcmp(w.at[0], "cell")) {
            p->cell[p->cells++] = (Cell){n[2], number_of(TYPES, 8, w.at[3]), number_of(OPS, 10, w.at[4]), n[5], n[6]};
        } else if (!strcmp(w.at[0], "link")) {
            p->link[p->links++] = (Link){n[2], n[3], n[4], n[5], n[6], number_of(KINDS, 3, w.at[7])};
        } else if (!strcmp(w.at[0], "done")) {
            p->done[rank++] = n[2];
        } else {
            int what = w.at[0][0] == 'r' ? RESULT : w.at[0][0] == 'e' ? ENTER : LEAVE;
            if (p->marks == MARKS) give_up("too many lines", "a plan");
            p->mark[p->marks++] = (Mark){what, what == RESULT ? buffer_of(w.at[1]) : n[1], n[2], n[3]};
        }
    }
}

static char *write_plan(const Plan *p, char *at) {
    at += sprintf(at, "plan %d %d %d %s\n", p->ranks, p->cells, p->links, p->remote ? "remote" : "local");
    for (int c = 0; c < p->cells; c++) {
        const Cell *it = &p->cell[c];
        const char *op = it->op == NO_OP ? "-" : OPS[it->op];
        at += sprintf(at, "cell %d %d %s %s %d %d\n", c, it->rank, TYPES[it->type], op, it->length, it->needs);
    }
    for (int l = 0; l < p->links; l++) {
        const Link *it = &p->link[l];
        at += sprintf(at, "link %d %d %d %d %d %d %s\n", l, it->source, it->start, it->length, it->target, it->to, KINDS[it->kind]);
    }
    for (int r = 0; r < p->ranks; r++) at += sprintf(at, "done %d %d\n", r, p->done[r]);
    for (int m = 0; m < p->marks; m++) {
        const Mark *it = &p->mark[m];
        if (it->what == RESULT) at += sprintf(at, "result %s %d %d\n", told.buffer[it->of].name, it->rank, it->cell);
        else at += sprintf(at, "%s %d %d %d\n", it->what == ENTER ? "enter" : "leave", it->of, it->rank, it->cell);
    }
    return at + sprintf(at, "end\n");
}

/* ---- one run: PLANS.md, sections 4, 6, 9, 11 and 12 */
typedef struct { int link, bytes; } Message; /* its bytes begin there in `carried` */
typedef struct { Message at[2 * LINKS]; int first, end; } Lane;

static struct {
    const Plan *plan;
    char fault[160];
    bool is_early; /* before its rank's start a cell's memory was read: it waits for nothing */
    int begins[CELLS], count[CELLS], stands[RANKS], all_bytes, inputs;
    bool went[CELLS], awake[RANKS];
    uint8_t memory[MEMORY], carried[MEMORY * 4];
    int ready[CELLS + LINKS], readies; /* operations: a link's number, or that of the cell that the done counter counts, after all links */
    Message early[RANKS][LINKS];
    int earlies[RANKS], carries, out_first[CELLS + 1], out[LINKS];
    Lane lane[2][RANKS][RANKS]; /* requests, then answers */
    int full[2 * RANKS * RANKS], fulls;
} run;

__attribute__((format(printf, 1, 2))) static void fault(const char *how, ...) {
    va_list rest;
    if (run.fault[0]) return;
    va_start(rest, how);
    vsnprintf(run.fault, sizeof run.fault, how, rest);
    va_end(rest);
}

static void send(int answers, int from, int to, Message message) {
    Lane *lane = &run.lane[answers][from][to];
    if (lane->first == lane->end) run.full[run.fulls++] = (answers * RANKS + from) * RANKS + to;
    lane->at[lane->end++] = message;
}

/* A rank leaves a barrier, which each member has entered by then. */
static void leave(const Mark *at) {
    const Plan *p = run.plan;
    for (const Mark *e = p->mark; e < p->mark + p->marks; e++) {
        if (e->what != ENTER || e->of != at->of) continue;
        if (!run.went[e->cell]) fault("barrier %d is left at rank %d before rank %d entered it", at->of, at->rank, e->rank);
    }
}

/* A cell has got all that it needs: its operations are ready, and one that the done counter counts. */
static void reached(int cell) {
    const Plan *p = run.plan;
    run.went[cell] = true;
    run.ready[run.readies++] = p->links + cell;
    for (int i = run.out_first[cell]; i < run.out_first[cell + 1]; i++) run.ready[run.readies++] = run.out[i];
    for (int m = 0; m < p->marks; m++) {
        const Mark *it = &p->mark[m];
        if (it->cell != cell) continue;
        if (it->what == ENTER && !run.awake[it->rank]) fault("rank %d enters barrier %d before its start", it->rank, it->of);
        if (it->what == LEAVE) leave(it);
    }
}

static void raise_cell(int cell) {
    const Cell *it = &run.plan->cell[cell];
    if (run.stands[it->rank] >= run.plan->done[it->rank]) fault("something comes to rank %d after it is done", it->rank);
    if (++run.count[cell] >= it->needs && !run.went[cell]) reached(cell);
}

/* A message comes into its cell, which counts it. */
static void landed(Message message) {
    const Link *it = &run.plan->link[message.link];
    const Cell *cell = &run.plan->cell[it->target];
    uint8_t *to = run.memory + run.begins[it->target] + it->to;
    const uint8_t *from = run.carried + message.bytes;
    int size = width(cell->type);
    if (it->to + it->length > cell->length) return fault("a message goes beyond cell %d", it->target);
    if (it->kind == PUT) memcpy(to, from, (size_t)it->length);
    else if (it->length % size || it->to % size || cell->op == NO_OP) return fault("cell %d can't combine a message", it->target);
    else
        for (int i = 0; i < it->length; i += size) {
            uint64_t x = read_element(to + i, cell->type), y = read_element(from + i, cell->type);
            write_element(to + i, cell->type, combine(cell->op, cell->type, x, y));
        }
    raise_cell(it->target);
}

static void taken(Message message) {
    const Link *it = &run.plan->link[message.link];
    landed(message);
    if (run.plan->remote) send(1, run.plan->cell[it->target].rank, run.plan->cell[it->source].rank, message);
}

static void count_done(int rank) {
    if (++run.stands[rank] > run.plan->done[rank]) fault("rank %d counts more than its threshold", rank);
}

static void fire(int place) {
    const Plan *p = run.plan;
    int operation = run.ready[place];
    run.ready[place] = run.ready[--run.readies];
    if (operation >= p->links) return count_done(p->cell[operation - p->links].rank);
    const Link *it = &p->link[operation];
    int rank = p->cell[it->source].rank, to = p->cell[it->target].rank;
    if (!run.awake[rank] && it->length > 0) {
        if (it->source < p->ranks + run.inputs) return fault("rank %d's input is read before its start", rank);
        run.is_early = true;
    }
    if (it->kind == BUMP && rank != to) return fault("an increment on another rank, link %d", operation);
    if (it->kind == BUMP) return raise_cell(it->target);
    if (it->start + it->length > p->cell[it->source].length) return fault("link %d reads beyond its cell", operation);
    if (run.carries + it->length > (int)sizeof run.carried) give_up("too large", "a run");
    memcpy(run.carried + run.carries, run.memory + run.begins[it->source] + it->start, (size_t)it->length);
    send(0, rank, to, (Message){operation, run.carries});
    run.carries += it->length;
}

/* The first message of a lane that has one is received: before its rank's start it waits there. */
static void deliver(int place) {
    int number = run.full[place], to = number % RANKS, from = number / RANKS % RANKS, answers = number / RANKS / RANKS;
    Lane *lane = &run.lane[answers][from][to];
    Message message = lane->at[lane->first++];
    if (lane->first == lane->end) run.full[place] = run.full[--run.fulls];
    if (answers) count_done(to);
    else if (run.awake[to]) taken(message);
    else run.early[to][run.earlies[to]++] = message;
}

/* What came early is taken in, cell by cell, each cell's in order of arrival; then the go cell counts one. */
static void start(int rank) {
    run.awake[rank] = true;
    for (int c = 0; c < run.plan->cells; c++)
        for (int i = 0; run.plan->cell[c].rank == rank && i < run.earlies[rank]; i++)
            if (run.plan->link[run.early[rank][i].link].target == c) taken(run.early[rank][i]);
    raise_cell(rank);
}

/* The bytes with which cells begin: an input's list, starting values, zeros. */
static void lay_out(void) {
    const Plan *p = run.plan;
    int input = p->ranks;
    run.all_bytes = 0;
    for (int c = 0; c < p->cells; c++) {
        run.begins[c] = run.all_bytes;
        run.all_bytes += p->cell[c].length;
        if (run.all_bytes > MEMORY) give_up("too large", "a plan");
        memset(run.memory + run.begins[c], 0, (size_t)p->cell[c].length);
        for (int i = 0; p->cell[c].op != NO_OP && i + width(p->cell[c].type) <= p->cell[c].length; i += width(p->cell[c].type))
            write_element(run.memory + run.begins[c] + i, p->cell[c].type, starting(p->cell[c].op, p->cell[c].type));
    }
    for (const Buffer *b = told.buffer; b < told.buffer + told.buffers; b++)
        for (int r = 0; b->is_input && r < told.ranks; r++, input++)
            for (int i = 0, size = width(b->type); i < b->lists[r].length && (i + 1) * size <= p->cell[input].length; i++)
                write_element(run.memory + run.begins[input] + i * size, b->type, b->lists[r].at[i]);
    run.inputs = input - p->ranks;
}

/* The links out of each cell: those of cell c are `out` from `out_first[c]` to before `out_first[c + 1]`. */
static void list_links_out(void) {
    const Plan *p = run.plan;
    memset(run.out_first, 0, sizeof run.out_first);
    for (int l = 0; l < p->links; l++) run.out_first[p->link[l].source + 1]++;
    for (int c = 0; c < p->cells; c++) run.out_first[c + 1] += run.out_first[c];
    int next[CELLS + 1];
    memcpy(next, run.out_first, sizeof next);
    for (int l = 0; l < p->links; l++) run.out[next[p->link[l].source]++] = l;
}

static void prepare(const Plan *p) {
    run.plan = p;
    run.fault[0] = 0;
    run.is_early = false;
    run.readies = run.carries = run.fulls = 0;
    lay_out();
    memset(run.count, 0, sizeof run.count);
    memset(run.went, 0, sizeof run.went);
    memset(run.stands, 0, sizeof run.stands);
    memset(run.awake, 0, sizeof run.awake);
    memset(run.earlies, 0, sizeof run.earlies);
    for (int answers = 0; answers < 2; answers++)
        for (int from = 0; from < p->ranks; from++)
            for (int to = 0; to < p->ranks; to++) run.lane[answers][from][to].first = run.lane[answers][from][to].end = 0;
    list_links_out();
    for (int c = 0; c < p->cells; c++)
        if (p->cell[c].needs == 0) reached(c);
}

/* Makes steps until none is left or one is at fault. Each order likes some kinds of steps more than others, and some ranks start only
   when nothing else goes. */
static void to_rest(void) {
    int ranks = run.plan->ranks, first[RANKS], firsts = 0, late[RANKS], lates = 0, likes[3];
    for (int i = 0; i < 3; i++) likes[i] = 1 << 2 * below(3);
    for (int r = 0, many = 1 + below(4); r < ranks; r++)
        if (below(many)) first[firsts++] = r;
        else late[lates++] = r;
    while (!run.fault[0]) {
        int starts = firsts * likes[0], deliveries = run.fulls * likes[1], firings = run.readies * likes[2];
        if (starts + deliveries + firings == 0) {
            if (lates == 0) return;
            int place = below(lates), rank = late[place];
            late[place] = late[--lates];
            start(rank);
            continue;
        }
        int step = below(starts + deliveries + firings);
        if (step < starts) {
            int place = step / likes[0], rank = first[place];
            first[place] = first[--firsts];
            start(rank);
        } else if (step < starts + deliveries) deliver((step - starts) / likes[1]);
        else fire((step - starts - deliveries) / likes[2]);
    }
}

/* How many lines of this kind name a rank's cell of a buffer or a barrier; the cell of the last. */
static int named(const Plan *p, int what, int of, int rank, int *cell) {
    int count = 0;
    for (int m = 0; m < p->marks; m++)
        if (p->mark[m].what == what && p->mark[m].of == of && p->mark[m].rank == rank) {
            *cell = p->mark[m].cell;
            if (p->cell[*cell].rank != rank) fault("a line names a cell on another rank, %d", *cell);
            count++;
        }
    return count;
}

static bool is_held(int buffer, int rank) { return told.buffer[buffer].lists[rank].length > 0; }

/* The first element of a cell that isn't what is meant, or -1. */
static int first_wrong(int cell, int buffer, int rank) {
    const Buffer *b = &told.buffer[buffer];
    for (int i = 0; i < b->lists[rank].length; i++)
        if (read_element(run.memory + run.begins[cell] + i * width(b->type), b->type) != b->lists[rank].at[i]) return i;
    return -1;
}

/* Whether all that the description asks for is named, once each. */
static void judge_marks(void) {
    int due = 0, cell;
    for (int b = 0; b < told.buffers; b++) {
        bool is_printed = false;
        for (int i = 0; i < told.prints; i++) is_printed |= told.print[i] == b;
        for (int r = 0; is_printed && r < told.ranks; r++) {
            if (!is_held(b, r)) continue;
            due++;
            if (named(run.plan, RESULT, b, r, &cell) != 1) return fault("%s isn't named once at rank %d", told.buffer[b].name, r);
            int length = told.buffer[b].lists[r].length * width(told.buffer[b].type);
            if (run.plan->cell[cell].length != length) return fault("%s has another length", told.buffer[b].name);
        }
    }
    for (int s = 0; s < told.steps; s++)
        for (int i = 0; !strcmp(told.step[s].word, "barrier") && i < told.step[s].on.count; i++, due += 2) {
            int rank = told.step[s].on.members[i];
            if (named(run.plan, ENTER, s, rank, &cell) != 1 || named(run.plan, LEAVE, s, rank, &cell) != 1)
                return fault("barrier %d isn't named once at rank %d", s, rank);
        }
    if (due != run.plan->marks) fault("a line names what isn't asked for");
}

/* Whether this order ended as it should, and where a result is wrong: `at` is the line's number among those that name cells. */
static void judge_end(int *at, int *place) {
    const Plan *p = run.plan;
    for (int r = 0; r < p->ranks; r++)
        if (run.stands[r] != p->done[r]) return fault("rank %d's done counter ends at %d", r, run.stands[r]);
    for (int c = 0; c < p->cells; c++)
        if (!run.went[c]) return fault("cell %d isn't reached", c);
    for (int m = 0; m < p->marks; m++) {
        *place = p->mark[m].what == RESULT ? first_wrong(p->mark[m].cell, p->mark[m].of, p->mark[m].rank) : -1;
        *at = m;
        if (*place >= 0) return fault("%s at rank %d, element %d", told.buffer[p->mark[m].of].name, p->mark[m].rank, *place);
    }
}

/* One run in a random order. What is wrong stands in `run.fault`; `at` and `place` are -1 where no result is. */
static void one_run(const Plan *p, int *at, int *place) {
    *at = *place = -1;
    prepare(p);
    judge_marks();
    to_rest();
    if (!run.fault[0]) judge_end(at, place);
    if (*place < 0) *at = -1;
}

/* ---- whether an operation reads what another operation made, byte by byte */
static bool reads_made(const Plan *p) {
    static bool made[MEMORY];
    run.plan = p;
    lay_out();
    for (int c = 0; c < p->cells; c++) memset(made + run.begins[c], p->cell[c].op != NO_OP, (size_t)p->cell[c].length);
    for (int l = 0; l < p->links; l++) { /* by rising targets, and mostly from lower cells */
        const Link *it = &p->link[l];
        bool is_within = it->start + it->length <= p->cell[it->source].length && it->to + it->length <= p->cell[it->target].length;
        if (it->kind == BUMP || !is_within) continue;
        for (int i = 0; i < it->length; i++) {
            bool is_made = made[run.begins[it->source] + it->start + i];
            if (it->kind == ATOMIC && is_made) return true;
            if (it->kind == PUT && is_made) made[run.begins[it->target] + it->to + i] = true;
        }
    }
    return false;
}
