/* Runs the steps of a description by the collectives of MPI, and writes the text of the result at rank 0.
 *
 *   mpirun -n RANKS ./collectives [--nonblocking] [--truth-of-one] DESCRIPTION
 *   ./collectives --library
 *
 * The second form writes which MPI this is: the first line of what MPI_Get_library_version says.
 *
 * RANKS is the number on the description's second line, and DESCRIPTION a path that every rank can read. The description is
 * one that `portals_run once` accepts: no rule of the language is judged here. With --nonblocking each step is a non-blocking
 * collective and a wait. `complete remote` says nothing to MPI and is passed over.
 *
 * A correct MPI differs from `portals_run` in one place. A logical operation over a single element, as in an allreduce on one
 * rank or at the first rank of a scan, gives that element here, and its truth value, 0 or 1, there. With --truth-of-one such
 * an element is made its truth value. */
#include <inttypes.h>
#include <mpi.h>
#include <stdbool.h>
#include <stdio.h>
#include <stdlib.h>
#include <string.h>

enum { RANKS = 256, BUFFERS = 128, GROUPS = 65, PRINTS = 128, WORDS = 4200, NAME = 17 };

/* An element type. */
struct type {
    const char *word;
    int bytes;
    bool is_signed;
};

static const struct type TYPES[] = {
    {"u8", 1, false},  {"i8", 1, true},  {"u16", 2, false}, {"i16", 2, true},
    {"u32", 4, false}, {"i32", 4, true}, {"u64", 8, false}, {"i64", 8, true},
};

/* A buffer: the ranks that hold it, and this rank's list, which is there at each member of the step that made it. */
struct buffer {
    char name[NAME];
    int type;
    int length;
    bool held[RANKS];
    void *here;
};

/* A group of ranks. `place` is this rank's number among its members, or -1. */
struct group {
    char name[NAME];
    int members;
    int rank[RANKS];
    int place;
    MPI_Comm comm;
};

static int rank, ranks;
static bool nonblocking, truth_of_one;
static struct buffer buffers[BUFFERS];
static int buffer_count;
/* The group at 0 is all ranks. */
static struct group groups[GROUPS];
static int group_count;

static void give_up(const char *why, const char *what) {
    fprintf(stderr, "collectives: %s: %s\n", why, what);
    MPI_Abort(MPI_COMM_WORLD, 2);
    exit(2);
}

/* ---- A step ------------------------------------------------------------------------------------------------------- */

/* What a step's call is given: A at this rank (NULL where no such list is here), B at this rank, and A's length. */
struct step {
    const struct group *on;
    int root;
    MPI_Op op;
    bool is_logical;
    const struct buffer *a;
    struct buffer *b;
    int n;
    MPI_Datatype type;
    const void *from;
    void *to;
};

/* A blocking collective, or the non-blocking one of the same name and a wait. */
#define COLLECTIVE(blocking, starting, ...)           \
    do {                                              \
        if (nonblocking) {                            \
            MPI_Request request;                      \
            starting(__VA_ARGS__, &request);          \
            MPI_Wait(&request, MPI_STATUS_IGNORE);    \
        } else {                                      \
            blocking(__VA_ARGS__);                    \
        }                                             \
    } while (0)

static void barrier(const struct step *s) { COLLECTIVE(MPI_Barrier, MPI_Ibarrier, s->on->comm); }

static void broadcast(const struct step *s) {
    if (s->on->place == s->root)
        memcpy(s->to, s->from, (size_t)s->n * (size_t)TYPES[s->a->type].bytes);
    COLLECTIVE(MPI_Bcast, MPI_Ibcast, s->to, s->n, s->type, s->root, s->on->comm);
}

static void reduce(const struct step *s) {
    COLLECTIVE(MPI_Reduce, MPI_Ireduce, s->from, s->to, s->n, s->type, s->op, s->root, s->on->comm);
}

static void allreduce(const struct step *s) {
    COLLECTIVE(MPI_Allreduce, MPI_Iallreduce, s->from, s->to, s->n, s->type, s->op, s->on->comm);
}

static void gather(const struct step *s) {
    COLLECTIVE(MPI_Gather, MPI_Igather, s->from, s->n, s->type, s->to, s->n, s->type, s->root, s->on->comm);
}

static void allgather(const struct step *s) {
    COLLECTIVE(MPI_Allgather, MPI_Iallgather, s->from, s->n, s->type, s->to, s->n, s->type, s->on->comm);
}

static void alltoall(const struct step *s) {
    int part = s->n / s->on->members;
    COLLECTIVE(MPI_Alltoall, MPI_Ialltoall, s->from, part, s->type, s->to, part, s->type, s->on->comm);
}

static void scan(const struct step *s) {
    COLLECTIVE(MPI_Scan, MPI_Iscan, s->from, s->to, s->n, s->type, s->op, s->on->comm);
}

static void exscan(const struct step *s) {
    COLLECTIVE(MPI_Exscan, MPI_Iexscan, s->from, s->to, s->n, s->type, s->op, s->on->comm);
}

static void scatter(const struct step *s) {
    int part = s->n / s->on->members;
    COLLECTIVE(MPI_Scatter, MPI_Iscatter, s->from, part, s->type, s->to, part, s->type, s->root, s->on->comm);
}

static void reducescatter(const struct step *s) {
    int part = s->n / s->on->members;
    COLLECTIVE(MPI_Reduce_scatter_block, MPI_Ireduce_scatter_block, s->from, s->to, part, s->type, s->op, s->on->comm);
}

static void gatherv(const struct step *s) {
    int counts[RANKS], starts[RANKS], sum = 0;
    for (int i = 0; i < s->on->members; i++) {
        counts[i] = s->a->held[s->on->rank[i]] ? s->n : 0;
        starts[i] = sum;
        sum += counts[i];
    }
    COLLECTIVE(MPI_Gatherv, MPI_Igatherv, s->from, counts[s->on->place], s->type, s->to, counts, starts, s->type, s->root,
               s->on->comm);
}

/* Who of a step's members holds B, and how long B is. */
enum holders { NOBODY, ROOT, MEMBERS, ALL_BUT_THE_FIRST };
enum length { NONE, AS_A, A_FOR_EACH_MEMBER, A_MEMBERTH_OF_A, A_FOR_EACH_HOLDER };

static const struct collective {
    const char *word;
    bool has_root, has_op;
    enum holders holders;
    enum length length;
    void (*call)(const struct step *);
} COLLECTIVES[] = {
    {"barrier", false, false, NOBODY, NONE, barrier},
    {"broadcast", true, false, MEMBERS, AS_A, broadcast},
    {"reduce", true, true, ROOT, AS_A, reduce},
    {"allreduce", false, true, MEMBERS, AS_A, allreduce},
    {"gather", true, false, ROOT, A_FOR_EACH_MEMBER, gather},
    {"allgather", false, false, MEMBERS, A_FOR_EACH_MEMBER, allgather},
    {"alltoall", false, false, MEMBERS, AS_A, alltoall},
    {"scan", false, true, MEMBERS, AS_A, scan},
    {"scatter", true, false, MEMBERS, A_MEMBERTH_OF_A, scatter},
    {"reducescatter", false, true, MEMBERS, A_MEMBERTH_OF_A, reducescatter},
    {"exscan", false, true, ALL_BUT_THE_FIRST, AS_A, exscan},
    {"gatherv", true, false, ROOT, A_FOR_EACH_HOLDER, gatherv},
};

/* ---- Types, operations and names by their words --------------------------------------------------------------------- */

static int type_of(const char *word) {
    for (size_t i = 0; i < sizeof TYPES / sizeof *TYPES; i++)
        if (!strcmp(TYPES[i].word, word)) return (int)i;
    give_up("no type", word);
    return 0;
}

static MPI_Datatype datatype(int type) {
    const MPI_Datatype all[] = {MPI_UINT8_T,  MPI_INT8_T,  MPI_UINT16_T, MPI_INT16_T,
                                MPI_UINT32_T, MPI_INT32_T, MPI_UINT64_T, MPI_INT64_T};
    return all[type];
}

static void set_op(struct step *s, const char *word) {
    const struct {
        const char *word;
        MPI_Op op;
        bool is_logical;
    } all[] = {{"min", MPI_MIN, false}, {"max", MPI_MAX, false},   {"sum", MPI_SUM, false}, {"prod", MPI_PROD, false},
               {"lor", MPI_LOR, true},  {"land", MPI_LAND, true},  {"bor", MPI_BOR, false}, {"band", MPI_BAND, false},
               {"lxor", MPI_LXOR, true}, {"bxor", MPI_BXOR, false}};
    for (size_t i = 0; i < sizeof all / sizeof *all; i++)
        if (!strcmp(all[i].word, word)) {
            s->op = all[i].op;
            s->is_logical = all[i].is_logical;
            return;
        }
    give_up("no operation", word);
}

static const struct collective *collective_of(const char *word) {
    for (size_t i = 0; i < sizeof COLLECTIVES / sizeof *COLLECTIVES; i++)
        if (!strcmp(COLLECTIVES[i].word, word)) return &COLLECTIVES[i];
    give_up("no collective", word);
    return NULL;
}

static struct buffer *buffer_named(const char *name) {
    for (int i = 0; i < buffer_count; i++)
        if (!strcmp(buffers[i].name, name)) return &buffers[i];
    give_up("no buffer", name);
    return NULL;
}

static const struct group *group_named(const char *name) {
    for (int i = 1; i < group_count; i++)
        if (!strcmp(groups[i].name, name)) return &groups[i];
    give_up("no group", name);
    return NULL;
}

/* ---- Elements ------------------------------------------------------------------------------------------------------- */

static void set_element(void *list, int type, int i, const char *word) {
    uint64_t value = TYPES[type].is_signed ? (uint64_t)strtoll(word, NULL, 10) : strtoull(word, NULL, 10);
    switch (TYPES[type].bytes) {
    case 1: ((uint8_t *)list)[i] = (uint8_t)value; break;
    case 2: ((uint16_t *)list)[i] = (uint16_t)value; break;
    case 4: ((uint32_t *)list)[i] = (uint32_t)value; break;
    default: ((uint64_t *)list)[i] = value;
    }
}

static void print_element(const void *list, int type, int i) {
    switch (type) {
    case 0: printf(" %" PRIu8, ((const uint8_t *)list)[i]); break;
    case 1: printf(" %" PRId8, ((const int8_t *)list)[i]); break;
    case 2: printf(" %" PRIu16, ((const uint16_t *)list)[i]); break;
    case 3: printf(" %" PRId16, ((const int16_t *)list)[i]); break;
    case 4: printf(" %" PRIu32, ((const uint32_t *)list)[i]); break;
    case 5: printf(" %" PRId32, ((const int32_t *)list)[i]); break;
    case 6: printf(" %" PRIu64, ((const uint64_t *)list)[i]); break;
    default: printf(" %" PRId64, ((const int64_t *)list)[i]);
    }
}

/* Makes each element its truth value. */
static void make_truth(const struct buffer *b) {
    size_t bytes = (size_t)TYPES[b->type].bytes;
    for (int i = 0; i < b->length; i++) {
        const char *at = (const char *)b->here + (size_t)i * bytes;
        bool is_true = false;
        for (size_t k = 0; k < bytes; k++) is_true |= at[k] != 0;
        set_element(b->here, b->type, i, is_true ? "1" : "0");
    }
}

static void *room_for(const struct buffer *b) {
    void *room = calloc((size_t)b->length + 1, (size_t)TYPES[b->type].bytes);
    if (!room) give_up("no memory", b->name);
    return room;
}

/* ---- The lines of a description ------------------------------------------------------------------------------------- */

static struct buffer *new_buffer(const char *name, int type, int length) {
    if (buffer_count == BUFFERS) give_up("too many buffers", name);
    struct buffer *b = &buffers[buffer_count++];
    snprintf(b->name, NAME, "%s", name);
    b->type = type;
    b->length = length;
    return b;
}

/* Makes a group of its members' ranks, and its communicator where this rank is a member. */
static void add_group(const char *name, const int *members, int count) {
    if (group_count == GROUPS) give_up("too many groups", name);
    struct group *g = &groups[group_count];
    snprintf(g->name, NAME, "%s", name);
    g->members = count;
    g->place = -1;
    for (int i = 0; i < count; i++) {
        g->rank[i] = members[i];
        if (members[i] == rank) g->place = i;
    }
    g->comm = MPI_COMM_WORLD;
    if (group_count && g->place >= 0) {
        MPI_Group all, some;
        MPI_Comm_group(MPI_COMM_WORLD, &all);
        MPI_Group_incl(all, count, members, &some);
        MPI_Comm_create_group(MPI_COMM_WORLD, some, group_count, &g->comm);
        MPI_Group_free(&some);
        MPI_Group_free(&all);
    }
    group_count++;
}

static int b_length(const struct collective *c, const struct step *s) {
    int holders = 0;
    for (int i = 0; i < s->on->members; i++) holders += s->a->held[s->on->rank[i]];
    switch (c->length) {
    case A_FOR_EACH_MEMBER: return s->n * s->on->members;
    case A_MEMBERTH_OF_A: return s->n / s->on->members;
    case A_FOR_EACH_HOLDER: return s->n * holders;
    default: return s->n;
    }
}

/* Makes B, with room for it at each member. */
static void make_b(const struct collective *c, struct step *s, const char *name) {
    s->b = new_buffer(name, s->a->type, b_length(c, s));
    for (int i = 0; i < s->on->members; i++)
        s->b->held[s->on->rank[i]] = c->holders == MEMBERS || (c->holders == ROOT && i == s->root) ||
                                     (c->holders == ALL_BUT_THE_FIRST && i > 0);
    if (s->on->place >= 0) s->to = s->b->here = room_for(s->b);
}

/* Whether what this rank has of B is a fold of one element. */
static bool is_of_one(const struct collective *c, const struct step *s) {
    if (c->call == scan) return s->on->place == 0;
    if (c->call == exscan) return s->on->place == 1;
    return s->on->members == 1;
}

/* The step whose words begin at w. */
static void run_step(char **w, const struct group *on) {
    const struct collective *c = collective_of(*w++);
    struct step s = {.on = on};
    if (c->has_root) s.root = atoi(*w++);
    if (c->has_op) set_op(&s, *w++);
    if (c->length != NONE) {
        s.a = buffer_named(w[0]);
        s.n = s.a->length;
        s.type = datatype(s.a->type);
        s.from = s.a->held[rank] ? s.a->here : NULL;
        make_b(c, &s, w[1]);
    }
    if (on->place < 0) return;
    c->call(&s);
    if (truth_of_one && s.is_logical && s.b->held[rank] && is_of_one(c, &s)) make_truth(s.b);
}

/* Writes a buffer at rank 0, which receives the lists of the others. */
static void print_buffer(const struct buffer *b) {
    MPI_Datatype type = datatype(b->type);
    if (rank && b->held[rank]) MPI_Send(b->here, b->length, type, 0, 0, MPI_COMM_WORLD);
    if (rank) return;
    void *room = room_for(b);
    for (int r = 0; r < ranks; r++) {
        printf("%s %d", b->name, r);
        if (b->held[r]) {
            if (r) MPI_Recv(room, b->length, type, r, 0, MPI_COMM_WORLD, MPI_STATUS_IGNORE);
            for (int i = 0; i < b->length; i++) print_element(r ? room : b->here, b->type, i);
        }
        printf("\n");
    }
    free(room);
}

/* Cuts the line at *text into words, and moves *text behind it. */
static int cut_line(char **text, char **words) {
    char *end = strchr(*text, '\n');
    if (!end) give_up("a line is missing", "end");
    *end = 0;
    int count = 0;
    for (char *word = strtok(*text, " "); word; word = strtok(NULL, " ")) {
        if (count == WORDS) give_up("too many words", word);
        words[count++] = word;
    }
    words[count] = NULL;
    *text = end + 1;
    return count;
}

static void read_input(char **w, char **text) {
    static char *values[WORDS + 1];
    struct buffer *b = new_buffer(w[1], type_of(w[2]), atoi(w[3]));
    b->here = room_for(b);
    for (int r = 0; r < ranks; r++) {
        b->held[r] = true;
        int count = cut_line(text, values);
        if (count != b->length) give_up("too few values", b->name);
        for (int i = 0; i < count && r == rank; i++) set_element(b->here, b->type, i, values[i]);
    }
}

static void read_group(char **w, int count) {
    int members[RANKS];
    if (count - 2 > RANKS) give_up("too many members", w[1]);
    for (int i = 2; i < count; i++) members[i - 2] = atoi(w[i]);
    add_group(w[1], members, count - 2);
}

/* Runs a description line by line. */
static void run(char *text) {
    static char *w[WORDS + 1];
    int count = cut_line(&text, w);
    count = cut_line(&text, w);
    if (count != 2 || atoi(w[1]) != ranks) give_up("the number of ranks isn't that of mpirun", w[1] ? w[1] : "");
    int all[RANKS];
    for (int r = 0; r < ranks; r++) all[r] = r;
    add_group("", all, ranks);
    for (;;) {
        count = cut_line(&text, w);
        if (!count) give_up("an empty line", "");
        if (!strcmp(w[0], "end")) break;
        if (!strcmp(w[0], "complete")) continue;
        if (!strcmp(w[0], "group")) read_group(w, count);
        else if (!strcmp(w[0], "input")) read_input(w, &text);
        else if (!strcmp(w[0], "print")) print_buffer(buffer_named(w[1]));
        else if (!strcmp(w[0], "on")) run_step(w + 2, group_named(w[1]));
        else run_step(w, &groups[0]);
    }
    if (!rank) printf("rest\n");
}

static char *read_file(const char *path) {
    FILE *file = fopen(path, "rb");
    if (!file) give_up("can't be opened", path);
    size_t most = 1 << 20;
    char *text = calloc(most + 2, 1);
    if (!text) give_up("no memory", path);
    if (fread(text, 1, most + 1, file) > most) give_up("longer than a description", path);
    fclose(file);
    return text;
}

/* It may be asked before MPI_Init, so no mpirun is needed. */
static int print_library(void) {
    char text[MPI_MAX_LIBRARY_VERSION_STRING];
    int length;
    MPI_Get_library_version(text, &length);
    printf("%.*s\n", (int)strcspn(text, "\n"), text);
    return 0;
}

int main(int argc, char **argv) {
    if (argc == 2 && !strcmp(argv[1], "--library")) return print_library();
    MPI_Init(&argc, &argv);
    MPI_Comm_rank(MPI_COMM_WORLD, &rank);
    MPI_Comm_size(MPI_COMM_WORLD, &ranks);
    if (ranks > RANKS) give_up("too many ranks", "256 are the most");
    const char *path = NULL;
    for (int i = 1; i < argc; i++) {
        if (!strcmp(argv[i], "--nonblocking")) nonblocking = true;
        else if (!strcmp(argv[i], "--truth-of-one")) truth_of_one = true;
        else path = argv[i];
    }
    if (!path) give_up("usage", "collectives [--nonblocking] [--truth-of-one] DESCRIPTION");
    char *text = read_file(path);
    run(text);
    free(text);
    MPI_Finalize();
    return 0;
}
