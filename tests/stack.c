/*
 * How much stack each question takes, measured: a call runs on a thread whose stack was filled with a pattern, and what
 * counts is how far below the frame that makes the call the pattern is overwritten when the call has ended. The
 * drawings are those with the longest routes and those at the limits; each of their constraints is asked about.
 *
 *   stack KB
 *
 * prints for each question the most bytes that one call took, and on which drawing. The exit status is 0 where no
 * question takes more than so many KB, 1 where one does, and 2 where it could not be measured. Two rows show that the
 * measure is good: an empty call, and a call that writes to 64 KB.
 */
#define _DEFAULT_SOURCE
#include <brentivex.h>

#include <pthread.h>
#include <stdio.h>
#include <stdlib.h>
#include <string.h>
#include <sys/mman.h>

enum { PAGE = 4096, STACK = 256 * 1024, PATTERN = 0xa5, KNOWN = 64 * 1024, KNOWN_MORE = 512 };
enum { POINTS = BRENTIVEX_MOST_OBJECTS, MOST = BRENTIVEX_MOST_CONSTRAINTS, STRIP = 2 * POINTS - 3 };
enum { DISTANCE = 1, COINCIDENCE = 3 };

struct drawing {
    const char *name;
    unsigned constraints;
    size_t len;
    uint8_t bytes[BRENTIVEX_MOST_BYTES];
};

/* What a call is given, and the bytes it is lent. */
struct asked {
    const struct drawing *drawing;
    uint32_t c;
    int32_t k;
    uint8_t block[BRENTIVEX_BLOCK_LEN], sheet[BRENTIVEX_ROW_LEN * MOST];
};

typedef uint32_t question(struct asked *);

/* A question, and where it took most. */
struct row {
    const char *name;
    question *question;
    size_t taken;
    const char *drawing;
};

/* One call of a question: its code, and the stack it took. */
struct call {
    question *question;
    struct asked *asked;
    uint32_t code;
    size_t taken;
};

static uint8_t *stack;

static void must(int holds, const char *what)
{
    if (!holds) {
        fprintf(stderr, "stack: %s\n", what);
        exit(2);
    }
}

static uint32_t nothing(struct asked *asked)
{
    (void)asked;
    return 0;
}

static uint32_t known(struct asked *asked)
{
    volatile uint8_t bytes[KNOWN];
    size_t i;
    (void)asked;
    for (i = 0; i < sizeof bytes; i++)
        bytes[i] = 0;
    return bytes[0];
}

static uint32_t look_over(struct asked *asked)
{
    return brentivex_look_over(asked->drawing->bytes, asked->drawing->len, asked->block, sizeof asked->block);
}

static uint32_t any_dense(struct asked *asked)
{
    return brentivex_any_dense(asked->drawing->bytes, asked->drawing->len, asked->k, asked->block,
                               sizeof asked->block);
}

static uint32_t one_constraint(struct asked *asked)
{
    return brentivex_one_constraint(asked->drawing->bytes, asked->drawing->len, asked->c, asked->block,
                                    sizeof asked->block);
}

static uint32_t sheet(struct asked *asked)
{
    return brentivex_sheet(asked->drawing->bytes, asked->drawing->len, asked->c, asked->sheet, sizeof asked->sheet);
}

/* The check of the sheet, with the density in the block as its claim. */
static uint32_t check(struct asked *asked)
{
    return brentivex_check(asked->drawing->bytes, asked->drawing->len, asked->c, asked->sheet, sizeof asked->sheet,
                           (int16_t)(asked->block[2] + 256 * asked->block[3]));
}

/* Makes the call, then finds the lowest word that is overwritten; nothing else is called before it is found. */
static void *on_thread(void *given)
{
    struct call *call = given;
    const volatile uint64_t *at = (const volatile uint64_t *)(void *)stack;
    volatile uint64_t pattern;
    memset((void *)&pattern, PATTERN, sizeof pattern);
    call->code = call->question(call->asked);
    while (*at == pattern)
        at++;
    call->taken = (uintptr_t)&pattern - (uintptr_t)at;
    return NULL;
}

static void measure(struct row *row, struct asked *asked)
{
    struct call call = {NULL, NULL, 0, 0};
    pthread_attr_t with;
    pthread_t thread;
    call.question = row->question;
    call.asked = asked;
    memset(stack, PATTERN, STACK);
    must(pthread_attr_init(&with) == 0 && pthread_attr_setstack(&with, stack, STACK) == 0, "no such stack");
    must(pthread_create(&thread, &with, on_thread, &call) == 0, "no thread");
    must(pthread_join(thread, NULL) == 0 && pthread_attr_destroy(&with) == 0, "the thread does not end");
    must(call.code == BRENTIVEX_ANSWERED || call.code == BRENTIVEX_NONE_DENSE, row->name);
    if (call.taken > row->taken) {
        row->taken = call.taken;
        row->drawing = asked->drawing->name;
    }
}

/* Writes a record at the end record's place and the end record behind it. */
static void put(struct drawing *drawing, const uint8_t *record, size_t len)
{
    static const uint8_t end[] = {0, 0, 3, 0};
    size_t at = drawing->len == 0 ? 0 : drawing->len - sizeof end;
    must(at + len + sizeof end <= sizeof drawing->bytes, "the drawing is too large");
    memcpy(drawing->bytes + at, record, len);
    memcpy(drawing->bytes + at + len, end, sizeof end);
    drawing->len = at + len + sizeof end;
}

static void start(struct drawing *drawing, const char *name, unsigned points, uint8_t weight)
{
    uint8_t record[] = {2, 0, 1, 0, 1, 0};
    unsigned i;
    drawing->name = name;
    drawing->constraints = 0;
    drawing->len = 0;
    record[5] = weight;
    for (i = 0; i < points; i++)
        put(drawing, record, sizeof record);
}

static void join(struct drawing *drawing, unsigned first, unsigned second, uint8_t kind, uint8_t weight)
{
    uint8_t record[] = {6, 0, 2, 0, 0, 0, 0, 0, 0, 0};
    record[4] = (uint8_t)first;
    record[6] = (uint8_t)second;
    record[8] = kind;
    record[9] = weight;
    put(drawing, record, sizeof record);
    drawing->constraints++;
}

/* A path of coincidences, each as heavy as a point, then distances at its first point: a share for these has to be
   moved along the whole path to the one point with room. */
static void chain(struct drawing *drawing, const char *name, unsigned distances, int backwards)
{
    unsigned i;
    start(drawing, name, POINTS, 0);
    for (i = 1; i < POINTS; i++)
        join(drawing, backwards ? POINTS - i : i - 1, backwards ? POINTS - 1 - i : i, COINCIDENCE, 0);
    for (i = 0; i < distances; i++)
        join(drawing, backwards ? POINTS - 1 : 0, backwards ? POINTS - 2 : 1, DISTANCE, 0);
}

/* Two rows of points with a rung, and two rails, a brace and a rung for each cell, listed over until there are so many
   distances. */
static void strip(struct drawing *drawing, const char *name, unsigned distances, uint8_t weight)
{
    static const unsigned cell[][2] = {{0, 2}, {1, 3}, {0, 3}, {2, 3}};
    unsigned i;
    start(drawing, name, POINTS, weight);
    for (i = 0; i < distances; i++) {
        unsigned at = i % STRIP == 0 ? 0 : (i % STRIP - 1) / 4 * 2, side = (i % STRIP + 3) % 4;
        if (i % STRIP == 0)
            join(drawing, 0, 1, DISTANCE, 0);
        else
            join(drawing, at + cell[side][0], at + cell[side][1], DISTANCE, 0);
    }
}

/* Six points with all their distances, and a path of distances that hangs on the first of them. */
static void tail(struct drawing *drawing, const char *name, int path_first)
{
    enum { FIGURE = 6 };
    unsigned part, i, j;
    start(drawing, name, POINTS, 0);
    for (part = 0; part < 2; part++)
        if ((part == 0) == path_first)
            for (i = FIGURE; i < POINTS; i++)
                join(drawing, i == FIGURE ? 0 : i - 1, i, DISTANCE, 0);
        else
            for (i = 0; i < FIGURE; i++)
                for (j = i + 1; j < FIGURE; j++)
                    join(drawing, i, j, DISTANCE, 0);
}

/* Distances between points at random, the same in each run. */
static void scattered(struct drawing *drawing, const char *name, unsigned distances, uint8_t points, uint8_t weight)
{
    uint32_t state = 13;
    unsigned i, ends[2], side;
    start(drawing, name, POINTS, points);
    for (i = 0; i < distances; i++) {
        for (side = 0; side < 2; side++) {
            state = state * 1664525u + 1013904223u;
            ends[side] = (state >> 16) % (POINTS - side);
        }
        join(drawing, ends[0], ends[1] + (ends[1] >= ends[0]), DISTANCE, weight);
    }
}

int main(int argc, char **argv)
{
    enum { EMPTY, WRITES, LOOK_OVER, ANY_DENSE, ONE_CONSTRAINT, SHEET, CHECK, ROWS };
    static struct row rows[ROWS] = {
        {"an empty call", nothing, 0, ""},
        {"a call that writes to 64 KB", known, 0, ""},
        {"look over", look_over, 0, ""},
        {"any dense", any_dense, 0, ""},
        {"one constraint", one_constraint, 0, ""},
        {"sheet", sheet, 0, ""},
        {"check", check, 0, ""},
    };
    static const int32_t ks[] = {-64, -3, 8191};
    static struct drawing drawings[16];
    static struct asked asked;
    struct drawing *drawing = drawings, *made;
    unsigned long kb = argc == 2 ? strtoul(argv[1], NULL, 10) : 0;
    int row, k, status = 0;
    must(kb > 0 && kb <= STACK / 1024 - 16, "use: stack KB, no more than 240");
    stack = mmap(NULL, PAGE + STACK, PROT_READ | PROT_WRITE, MAP_PRIVATE | MAP_ANONYMOUS, -1, 0);
    must(stack != MAP_FAILED && mprotect(stack, PAGE, PROT_NONE) == 0, "no memory");
    stack += PAGE;

    chain(drawing++, "chain", 4, 0);
    chain(drawing++, "chain backwards", 4, 1);
    chain(drawing++, "heavy chain", MOST - (POINTS - 1), 0);
    chain(drawing++, "heavy chain backwards", MOST - (POINTS - 1), 1);
    strip(drawing++, "braced strip", STRIP, 0);
    strip(drawing++, "repeated strip", MOST, 4);
    tail(drawing++, "loose tail", 0);
    tail(drawing++, "loose tail first", 1);
    scattered(drawing++, "scattered", STRIP, 0, 0);
    scattered(drawing++, "scattered on heavy points", MOST, 4, 0);
    scattered(drawing++, "all of weight 15", MOST, 15, 15);
    scattered(drawing++, "heaviest", MOST, 0, 15);
    for (made = drawings; made < drawing; made++) {
        asked.drawing = made;
        asked.c = 0;
        measure(&rows[EMPTY], &asked);
        measure(&rows[WRITES], &asked);
        measure(&rows[LOOK_OVER], &asked);
        for (k = 0; k < 3; k++) {
            asked.k = ks[k];
            measure(&rows[ANY_DENSE], &asked);
        }
        for (; asked.c < made->constraints; asked.c++) {
            measure(&rows[ONE_CONSTRAINT], &asked);
            measure(&rows[SHEET], &asked);
            measure(&rows[CHECK], &asked);
        }
    }
    for (row = 0; row < ROWS; row++) {
        printf("%-28s %7lu bytes  %s\n", rows[row].name, (unsigned long)rows[row].taken, rows[row].drawing);
        status |= row >= LOOK_OVER && rows[row].taken > 1024 * kb;
    }
    must(rows[EMPTY].taken < KNOWN_MORE, "an empty call takes much");
    must(rows[WRITES].taken >= KNOWN && rows[WRITES].taken < KNOWN + KNOWN_MORE, "64 KB are not 64 KB");
    return status;
}
