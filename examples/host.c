/*
 * A host of the constraint counter: reads a drawing file, asks every question and prints the answers in words.
 *
 *   host [-s] DRAWING [K [C]]
 *
 * K is -3 unless given. C is the constraint to look at: unless given, the one that is dense at K, or else 0. Whatever
 * fits an int32_t as K, and a uint32_t as C, goes to the library, which refuses what is out of range. With -s the
 * sheet's shares are printed too. The exit status is 0 where no call was refused, 1 where one was, and 2 where the
 * words or the file are no good.
 */
#include <brentivex.h>

#include <stdio.h>
#include <stdlib.h>
#include <string.h>

/* So much of a file is read: longer than any drawing, so that a longer file is refused. */
enum { MOST_READ = 6000 };

static const char *in_words(uint32_t code)
{
    switch (code) {
    case BRENTIVEX_ANSWERED: return "answered";
    case BRENTIVEX_CUT_SHORT: return "the bytes end inside a record, or before an end record";
    case BRENTIVEX_RECORD_KIND: return "a record is of no known kind";
    case BRENTIVEX_RECORD_LENGTH: return "a record has not the length of its kind";
    case BRENTIVEX_OBJECT_AFTER_CONSTRAINT: return "an object comes after a constraint";
    case BRENTIVEX_TOO_MANY: return "there are more than 128 objects or 512 constraints";
    case BRENTIVEX_NOT_IN_TABLE: return "an object or a constraint is not in the table of kinds";
    case BRENTIVEX_STATED_WEIGHT: return "a stated weight is above 15";
    case BRENTIVEX_ENDS: return "an end names no object, or both ends are the same";
    case BRENTIVEX_BYTES_AFTER_END: return "there are bytes after the end record";
    case BRENTIVEX_K_RANGE: return "K is outside -64 to 8191";
    case BRENTIVEX_NO_SUCH_CONSTRAINT: return "no constraint has this number";
    case BRENTIVEX_TOO_SHORT: return "the buffer or sheet is too short";
    case BRENTIVEX_NONE_DENSE: return "none is dense";
    case BRENTIVEX_NOT_SHOWN: return "the sheet does not show the claim";
    default: return "unknown code";
    }
}

static int refused(uint32_t code)
{
    printf("refused, code %lu: %s.\n", (unsigned long)code, in_words(code));
    return 1;
}

static unsigned number(const uint8_t *bytes)
{
    return bytes[0] + 256u * bytes[1];
}

static int density(const uint8_t *block)
{
    unsigned n = number(block + 2);
    return n < 32768u ? (int)n : (int)n - 65536;
}

static void print_block(const uint8_t *block)
{
    unsigned i;
    printf("top density %d, with the objects", density(block));
    for (i = 0; i < BRENTIVEX_MOST_OBJECTS; i++)
        if (block[4 + i / 8] >> (i % 8) & 1)
            printf(" %u", i);
    printf(".\n");
}

/* Whether anything is dense at K. Sets *c to the constraint that is. */
static int ask_any_dense(const uint8_t *drawing, size_t len, int32_t k, uint32_t *c)
{
    uint8_t block[BRENTIVEX_BLOCK_LEN];
    uint32_t code = brentivex_any_dense(drawing, len, k, block, sizeof block);
    printf("At K = %ld: ", (long)k);
    if (code == BRENTIVEX_NONE_DENSE) {
        printf("none is dense.\n");
        return 0;
    }
    if (code != BRENTIVEX_ANSWERED)
        return refused(code);
    *c = number(block);
    printf("constraint %lu is dense, ", (unsigned long)*c);
    print_block(block);
    return 0;
}

static int checked(uint32_t code)
{
    if (code != BRENTIVEX_ANSWERED && code != BRENTIVEX_NOT_SHOWN)
        return refused(code);
    printf("%s.\n", code == BRENTIVEX_ANSWERED ? "accepted" : "not accepted");
    return 0;
}

/* The sheet for c, what it adds up to, and the check of it as it is and with one share altered. */
static int ask_sheet(const uint8_t *drawing, size_t len, uint32_t c, unsigned constraints, int claim, int with_shares)
{
    uint8_t sheet[BRENTIVEX_ROW_LEN * BRENTIVEX_MOST_CONSTRAINTS];
    size_t sheet_len = (size_t)BRENTIVEX_ROW_LEN * constraints;
    unsigned i, sum = 0;
    int status;
    uint32_t code = brentivex_sheet(drawing, len, c, sheet, sheet_len);
    printf("Its sheet: ");
    if (code != BRENTIVEX_ANSWERED)
        return refused(code);
    for (i = 0; i < 2 * constraints; i++)
        sum += number(sheet + 2 * i);
    printf("%u rows, shares of %u in all.\n", constraints, sum);
    for (i = 0; with_shares && i < constraints; i++)
        printf("Row %u: %u %u\n", i, number(sheet + 4 * i), number(sheet + 4 * i + 2));
    printf("The check of it with the claim %d: ", claim);
    status = checked(brentivex_check(drawing, len, c, sheet, sheet_len, claim));
    sheet[0]++;
    printf("The check with one share more: ");
    return checked(brentivex_check(drawing, len, c, sheet, sheet_len, claim)) | status;
}

static int ask_constraint(const uint8_t *drawing, size_t len, uint32_t c, unsigned constraints, int with_shares)
{
    uint8_t block[BRENTIVEX_BLOCK_LEN];
    uint32_t code = brentivex_one_constraint(drawing, len, c, block, sizeof block);
    printf("Constraint %lu: ", (unsigned long)c);
    if (code != BRENTIVEX_ANSWERED)
        return refused(code);
    print_block(block);
    return ask_sheet(drawing, len, c, constraints, density(block), with_shares);
}

static int read_number(const char *word, long long least, long long most, long long *n)
{
    char *end;
    *n = strtoll(word, &end, 10);
    return end != word && *end == '\0' && *n >= least && *n <= most;
}

int main(int argc, char **argv)
{
    uint8_t drawing[MOST_READ], counts[BRENTIVEX_COUNTS_LEN];
    int with_shares = argc > 1 && strcmp(argv[1], "-s") == 0, status;
    long long k = -3, asked = 0;
    uint32_t code, c = 0;
    size_t len;
    FILE *file;

    argc -= with_shares;
    argv += with_shares;
    if (argc < 2 || argc > 4 || (argc > 2 && !read_number(argv[2], INT32_MIN, INT32_MAX, &k)) ||
        (argc > 3 && !read_number(argv[3], 0, UINT32_MAX, &asked))) {
        fprintf(stderr, "use: host [-s] DRAWING [K [C]]\n");
        return 2;
    }
    file = fopen(argv[1], "rb");
    if (file == NULL) {
        perror(argv[1]);
        return 2;
    }
    len = fread(drawing, 1, sizeof drawing, file);
    if (ferror(file)) {
        perror(argv[1]);
        fclose(file);
        return 2;
    }
    fclose(file);

    code = brentivex_look_over(drawing, len, counts, sizeof counts);
    printf("The drawing: ");
    if (code != BRENTIVEX_ANSWERED)
        return refused(code);
    printf("%u objects, %u constraints.\n", number(counts), number(counts + 2));
    status = ask_any_dense(drawing, len, (int32_t)k, &c);
    if (argc > 3)
        c = (uint32_t)asked;
    return ask_constraint(drawing, len, c, number(counts + 2), with_shares) | status;
}
