/*
 * Some hundred thousand calls of all questions, for a checker of memory to watch: every drawing, sheet and buffer has
 * exactly the length that is lent. The drawings named on the command line are asked about whole, cut at each length,
 * and with each byte altered in turn; then the largest drawing there is, drawings with one record more, and runs of
 * bytes longer than any drawing.
 *
 * A run of bytes is on the heap, or, as the build defines,
 *
 *   GUARD_BEHIND   ends where a page begins that cannot be touched: a touch behind its end stops the program;
 *   GUARD_FRONT    starts where a page ends that cannot be touched: a touch before its start stops the program.
 *
 * With either, a drawing, and a sheet while it is checked, is in pages that can only be read, and a write to it stops
 * the program. A run of length 0 is lent twice: as a null pointer, and as a pointer to no byte.
 */
#define _DEFAULT_SOURCE
#include <brentivex.h>

#include <stdio.h>
#include <stdlib.h>
#include <string.h>
#if defined GUARD_BEHIND || defined GUARD_FRONT
#include <sys/mman.h>
#endif

enum { FILL = 0xa5, PAGE = 4096, MOST_READ = 6000, LONGEST = 65536 + BRENTIVEX_MOST_BYTES };

/* The length 0 of a run that is a null pointer. */
#define NOTHING ((size_t)-1)

#define COUNT(array) (sizeof(array) / sizeof *(array))

/* A run of bytes that is lent. */
struct run {
    uint8_t *bytes;
    size_t len;
};

static const struct run no_run = {NULL, 0};
static unsigned long calls, answered, sum;

/* The code that refuses the drawing asked about, or 0. */
static uint32_t fault;

static void must(int holds, const char *what)
{
    if (!holds) {
        fprintf(stderr, "calls: %s\n", what);
        exit(1);
    }
}

#if defined GUARD_BEHIND || defined GUARD_FRONT
/* The length of the pages that hold so many bytes; a page that cannot be touched lies on either side of them. */
static size_t pages(size_t len)
{
    return (len + PAGE - 1) / PAGE * PAGE;
}

/* Where the pages of a run start. */
static uint8_t *first_page(struct run run)
{
#ifdef GUARD_BEHIND
    return run.bytes + run.len - pages(run.len);
#else
    return run.bytes;
#endif
}

static void allow(struct run run, int what)
{
    if (run.len != 0)
        must(mprotect(first_page(run), pages(run.len), what) == 0, "mprotect");
}

static void only_read(struct run run)
{
    allow(run, PROT_READ);
}

static void read_and_write(struct run run)
{
    allow(run, PROT_READ | PROT_WRITE);
}

static struct run lend(size_t len)
{
    struct run run;
    uint8_t *start;
    if (len == NOTHING)
        return no_run;
    start = mmap(NULL, pages(len) + 2 * PAGE, PROT_NONE, MAP_PRIVATE | MAP_ANONYMOUS, -1, 0);
    must(start != MAP_FAILED, "no memory");
    run.bytes = start + PAGE;
    run.len = len;
#ifdef GUARD_BEHIND
    run.bytes += pages(len) - len;
#endif
    read_and_write(run);
    return run;
}

static void take_back(struct run run)
{
    if (run.bytes != NULL)
        must(munmap(first_page(run) - PAGE, pages(run.len) + 2 * PAGE) == 0, "munmap");
}
#else
static void only_read(struct run run)
{
    (void)run;
}

static void read_and_write(struct run run)
{
    (void)run;
}

static struct run lend(size_t len)
{
    struct run run;
    if (len == NOTHING)
        return no_run;
    run.bytes = malloc(len);
    run.len = len;
    must(run.bytes != NULL, "no memory");
    return run;
}

static void take_back(struct run run)
{
    free(run.bytes);
}
#endif

static struct run lend_copy(const uint8_t *from, size_t len)
{
    struct run run = lend(len);
    if (run.len != 0)
        memcpy(run.bytes, from, run.len);
    return run;
}

static struct run lend_filled(size_t len)
{
    struct run run = lend(len);
    if (run.len != 0)
        memset(run.bytes, FILL, run.len);
    return run;
}

/* A call has ended: its code is one of the codes, that of the drawing's fault where it has one, and of the buffer only
   the bytes named were written. Those are added up. */
static uint32_t ended(uint32_t code, struct run buffer, size_t named)
{
    size_t i, written = code == BRENTIVEX_ANSWERED && buffer.len != 0 ? named : 0;
    calls++;
    answered += code == BRENTIVEX_ANSWERED;
    if (fault != 0)
        must(code == fault, "not the code of the drawing's fault");
    else
        must(code == BRENTIVEX_ANSWERED || (code >= BRENTIVEX_K_RANGE && code <= BRENTIVEX_TOO_SHORT) ||
                 code == BRENTIVEX_NONE_DENSE || code == BRENTIVEX_NOT_SHOWN,
             "unknown code");
    for (i = 0; i < written; i++)
        sum += buffer.bytes[i];
    for (i = written; i < buffer.len; i++)
        must(buffer.bytes[i] == FILL, "a byte was written that is not named");
    return code;
}

static void ask_look_over(struct run drawing, size_t room, uint32_t *constraints)
{
    struct run buffer = lend_filled(room);
    uint32_t code = brentivex_look_over(drawing.bytes, drawing.len, buffer.bytes, buffer.len);
    if (ended(code, buffer, BRENTIVEX_COUNTS_LEN) == BRENTIVEX_ANSWERED)
        *constraints = buffer.bytes[2] + 256u * buffer.bytes[3];
    take_back(buffer);
}

static void ask_any_dense(struct run drawing, int32_t k, size_t room)
{
    struct run buffer = lend_filled(room);
    ended(brentivex_any_dense(drawing.bytes, drawing.len, k, buffer.bytes, buffer.len), buffer, BRENTIVEX_BLOCK_LEN);
    take_back(buffer);
}

static void ask_one_constraint(struct run drawing, uint32_t c, size_t room, int *claim)
{
    struct run buffer = lend_filled(room);
    uint32_t code = brentivex_one_constraint(drawing.bytes, drawing.len, c, buffer.bytes, buffer.len);
    if (ended(code, buffer, BRENTIVEX_BLOCK_LEN) == BRENTIVEX_ANSWERED) {
        *claim = buffer.bytes[2] + 256 * buffer.bytes[3];
        *claim -= *claim < 32768 ? 0 : 65536;
    }
    take_back(buffer);
}

static uint32_t ask_check(struct run drawing, uint32_t c, struct run sheet, int claim)
{
    uint32_t code;
    only_read(sheet);
    code = ended(brentivex_check(drawing.bytes, drawing.len, c, sheet.bytes, sheet.len, claim), no_run, 0);
    read_and_write(sheet);
    return code;
}

/* The sheet for c in a buffer of that length; where it is answered, the check accepts it and not its altered like. */
static void ask_sheet(struct run drawing, uint32_t c, size_t rows, size_t room, int claim)
{
    struct run sheet = lend_filled(room);
    uint32_t code = brentivex_sheet(drawing.bytes, drawing.len, c, sheet.bytes, sheet.len), check;
    ended(code, sheet, rows);
    check = ask_check(drawing, c, sheet, claim);
    if (code == BRENTIVEX_ANSWERED) {
        must(check == BRENTIVEX_ANSWERED, "the sheet is not accepted");
        sheet.bytes[room - 1] ^= 1;
        check = ask_check(drawing, c, sheet, claim);
        must((check == BRENTIVEX_NOT_SHOWN) == (room == rows), "the altered sheet is misjudged");
    } else
        must(check == code, "sheet and check refuse with different codes");
    take_back(sheet);
}

static void ask_constraint(struct run drawing, uint32_t c, size_t rows)
{
    static const size_t rooms[] = {NOTHING, 0, 1, 19, 20, 21, 320, 5000}, more[] = {0, 1, 300, 5000};
    size_t i;
    int claim = 0;
    for (i = 0; i < COUNT(rooms); i++)
        ask_one_constraint(drawing, c, rooms[i], &claim);
    for (i = 0; i < COUNT(more); i++)
        ask_sheet(drawing, c, rows, rows + more[i], claim);
    ask_sheet(drawing, c, rows, NOTHING, claim);
    if (rows > 0) {
        ask_sheet(drawing, c, rows, 0, claim);
        ask_sheet(drawing, c, rows, rows - 1, claim);
    }
}

/* All questions; of the constraints the first, the last, the one after it and some far off, or each of them. */
static void ask(const uint8_t *bytes, size_t len, int each)
{
    static const int32_t ks[] = {INT32_MIN, -65, -64, -4, -3, -2, 8191, 8192, INT32_MAX};
    static const size_t rooms[] = {NOTHING, 0, 1, 3, 4, 5, 19, 20, 21, 320, 5000};
    struct run drawing = lend_copy(bytes, len);
    uint8_t counts[BRENTIVEX_COUNTS_LEN];
    uint32_t c, constraints = 0;
    size_t i;
    only_read(drawing);
    fault = brentivex_look_over(drawing.bytes, drawing.len, counts, sizeof counts);
    must(fault <= BRENTIVEX_BYTES_AFTER_END, "unknown fault of a drawing");
    for (i = 0; i < COUNT(rooms); i++) {
        ask_look_over(drawing, rooms[i], &constraints);
        ask_any_dense(drawing, -64, rooms[i]);
        ask_any_dense(drawing, 8191, rooms[i]);
    }
    for (i = 0; i < COUNT(ks); i++)
        ask_any_dense(drawing, ks[i], BRENTIVEX_BLOCK_LEN);
    for (c = 0; c <= constraints; c++)
        if (each || c == 0 || c + 1 >= constraints)
            ask_constraint(drawing, c, (size_t)BRENTIVEX_ROW_LEN * constraints);
    ask_constraint(drawing, 65536, (size_t)BRENTIVEX_ROW_LEN * constraints);
    ask_constraint(drawing, UINT32_MAX, (size_t)BRENTIVEX_ROW_LEN * constraints);
    take_back(drawing);
}

/* Writes so many points, so many distances between neighbours and the end record; how many bytes they are. */
static size_t put_large(uint8_t *bytes, unsigned points, unsigned distances)
{
    static const uint8_t point[] = {2, 0, 1, 0, 1, 0}, end[] = {0, 0, 3, 0};
    uint8_t distance[] = {6, 0, 2, 0, 0, 0, 0, 0, 1, 0}, *to = bytes;
    unsigned i;
    for (i = 0; i < points; i++, to += sizeof point)
        memcpy(to, point, sizeof point);
    for (i = 0; i < distances; i++, to += sizeof distance) {
        distance[4] = (uint8_t)(i % points);
        distance[6] = (uint8_t)((i + 1) % points);
        memcpy(to, distance, sizeof distance);
    }
    memcpy(to, end, sizeof end);
    return (size_t)(to - bytes) + sizeof end;
}

static void ask_large(unsigned points, unsigned distances, uint32_t wanted)
{
    uint8_t bytes[MOST_READ];
    ask(bytes, put_large(bytes, points, distances), 0);
    must(fault == wanted, "a large drawing is misjudged");
}

/* Runs of that length, longer than any drawing: nothing but points; the least drawing, and the largest, with bytes
   after the end record. */
static void ask_long(size_t len)
{
    static uint8_t bytes[LONGEST + 10];
    put_large(bytes, LONGEST / 6 + 1, 0);
    ask(bytes, len, 0);
    must(fault == BRENTIVEX_TOO_MANY, "too many points are misjudged");
    memset(bytes, 0, sizeof bytes);
    put_large(bytes, 0, 0);
    ask(bytes, len, 0);
    must(fault == BRENTIVEX_BYTES_AFTER_END, "bytes after the least drawing are misjudged");
    put_large(bytes, BRENTIVEX_MOST_OBJECTS, BRENTIVEX_MOST_CONSTRAINTS);
    ask(bytes, len, 0);
    must(fault == BRENTIVEX_BYTES_AFTER_END, "bytes after the largest drawing are misjudged");
}

/* The drawing in a file, whole, cut and altered. */
static void ask_file(const char *name)
{
    uint8_t bytes[MOST_READ];
    size_t len, at;
    FILE *file = fopen(name, "rb");
    must(file != NULL, name);
    len = fread(bytes, 1, sizeof bytes, file);
    fclose(file);
    ask(bytes, len, 1);
    for (at = 0; at < len; at++) {
        uint8_t before = bytes[at];
        ask(bytes, at, 0);
        bytes[at] = (uint8_t)(before ^ 1u << at % 4);
        ask(bytes, len, 0);
        bytes[at] = before;
    }
}

int main(int argc, char **argv)
{
    static const size_t lengths[] = {BRENTIVEX_MOST_BYTES + 1, 6000, 6001, 7000, 70000, LONGEST};
    size_t i;
    int file;
    for (file = 1; file < argc; file++)
        ask_file(argv[file]);
    ask(NULL, NOTHING, 0);
    must(fault == BRENTIVEX_CUT_SHORT, "no bytes at all are misjudged");
    ask_large(BRENTIVEX_MOST_OBJECTS, BRENTIVEX_MOST_CONSTRAINTS, BRENTIVEX_ANSWERED);
    ask_large(BRENTIVEX_MOST_OBJECTS + 1, BRENTIVEX_MOST_CONSTRAINTS, BRENTIVEX_TOO_MANY);
    ask_large(BRENTIVEX_MOST_OBJECTS, BRENTIVEX_MOST_CONSTRAINTS + 1, BRENTIVEX_TOO_MANY);
    for (i = 0; i < COUNT(lengths); i++)
        ask_long(lengths[i]);
    must(calls >= 200000 && answered >= 9000, "too few calls");
    printf("%lu calls, %lu answered with bytes of %lu in all\n", calls, answered, sum);
    return 0;
}
