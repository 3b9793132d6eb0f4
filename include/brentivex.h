/*
 * Brentivex, the constraint counter: the questions that a drafting program asks of a drawing.
 *
 * A drawing is bytes. Every record is the length of its body (2 bytes), its kind (2 bytes) and its body; all numbers
 * are little-endian. Objects come first, then constraints, then one end record, then nothing:
 *
 *   kind 1, object      2 bytes: object kind, stated weight
 *   kind 2, constraint  6 bytes: first end (2), second end (2), constraint kind, stated weight
 *   kind 3, end         no body
 *
 * There are at most 128 objects and 512 constraints, each numbered from 0 in the order in which they are read, so a
 * drawing has at most 5,892 bytes. A stated weight of 0 means the weight of the table; 1 to 15 replace it:
 *
 *   objects             1 point, weight 2; 2 line, 2; 3 circle of given radius, 2; 4 circle of free radius, 3;
 *                       5 rigid cluster, 3
 *   constraints         1 distance, weight 1, between point and point, point and line, line and line
 *   (ends in either     2 angle, parallel included, 1, between line and line
 *   order)              3 coincidence, 2, between point and point
 *                       4 incidence, 1, between point and line, point and circle of either kind
 *                       5 tangency, 1, between line and circle, circle and circle, of either kind
 *                       6 shared point, 2, between cluster and cluster
 *                       7 same centre, 2, between circle and circle, of either kind
 *
 * A set of objects holds a constraint if both its ends are in the set. The density of a set is the weights of the
 * constraints it holds less the weights of its objects. The top density of a constraint is the greatest density of a
 * set that holds it, and its answer set is the one set that holds it, has that density and lies inside every other
 * such set. Good counts do not show that a figure can be built: no coordinates, sizes or equations are looked at.
 *
 * Every function
 *   - returns one of the codes below; a call that returns another code than 0 writes nothing;
 *   - takes each run of bytes as a pointer and a length; the pointer may be null where the length is 0, and is good
 *     for that many bytes otherwise. It reads and writes no byte past a length;
 *   - only reads `drawing` and `sheet`, and writes only to `buffer`: from its start, the bytes named with the
 *     function; the rest of a longer buffer stays as it was;
 *   - must be given a `buffer` that overlaps neither the drawing nor any other memory that is read or written during
 *     the call;
 *   - ends, keeps no state between calls, allocates nothing, and may be called from several threads at once.
 *
 * Stack: at most 160 KB
 * It is measured: tests/stack.sh runs every question on drawings with the longest routes and holds it to that line.
 *
 * The archive is for x86-64. It needs no library but the C library, and of that only
 * Symbols: memcpy memset
 */
#ifndef BRENTIVEX_H
#define BRENTIVEX_H

#include <stddef.h>
#include <stdint.h>

#ifdef __cplusplus
extern "C" {
#endif

/*
 * The codes. 1 to 12 refuse the call. Records are judged front to back and the first faulty one decides; within one
 * record the order is: head short (1), 2, 3, body short (1), 4, 5, 8, 6, 7. Then 9, 10, 11, 12. Codes 32 and 33 come
 * only where nothing is refused.
 */
enum brentivex_code {
    BRENTIVEX_ANSWERED = 0,
    BRENTIVEX_CUT_SHORT = 1,               /* the bytes end inside a record, or before an end record */
    BRENTIVEX_RECORD_KIND = 2,             /* record kind not 1 to 3 */
    BRENTIVEX_RECORD_LENGTH = 3,           /* length is not that of the kind */
    BRENTIVEX_OBJECT_AFTER_CONSTRAINT = 4, /* an object after a constraint */
    BRENTIVEX_TOO_MANY = 5,                /* the 129th object or the 513th constraint */
    BRENTIVEX_NOT_IN_TABLE = 6,            /* unknown object kind, or a constraint not allowed between these objects */
    BRENTIVEX_STATED_WEIGHT = 7,           /* stated weight above 15 */
    BRENTIVEX_ENDS = 8,                    /* an end that names no object, or both ends the same */
    BRENTIVEX_BYTES_AFTER_END = 9,         /* bytes after the end record */
    BRENTIVEX_K_RANGE = 10,                /* K outside -64 to 8,191 */
    BRENTIVEX_NO_SUCH_CONSTRAINT = 11,     /* no constraint has the number c */
    BRENTIVEX_TOO_SHORT = 12,              /* buffer or sheet too short */
    BRENTIVEX_NONE_DENSE = 32,             /* no constraint has a top density above K */
    BRENTIVEX_NOT_SHOWN = 33               /* the sheet is not sound, or its claim is another number */
};

/* The limits of a drawing, and how many bytes an answer has; a sheet has BRENTIVEX_ROW_LEN for each constraint. */
enum brentivex_size {
    BRENTIVEX_MOST_OBJECTS = 128,
    BRENTIVEX_MOST_CONSTRAINTS = 512,
    BRENTIVEX_MOST_BYTES = 5892,
    BRENTIVEX_COUNTS_LEN = 4,
    BRENTIVEX_BLOCK_LEN = 20,
    BRENTIVEX_ROW_LEN = 4
};

/*
 * Look over: how many objects and constraints the drawing has.
 *
 *   drawing, drawing_len  the drawing
 *   buffer, buffer_len    where the answer goes, 4 bytes or more
 *
 * BRENTIVEX_ANSWERED: writes 4 bytes, the number of objects (2) and the number of constraints (2).
 * Every other code writes nothing: BRENTIVEX_CUT_SHORT to BRENTIVEX_BYTES_AFTER_END for a fault of the drawing;
 * BRENTIVEX_TOO_SHORT where buffer_len is below 4.
 */
uint32_t brentivex_look_over(const uint8_t *drawing, size_t drawing_len, uint8_t *buffer, size_t buffer_len);

/*
 * One constraint: the top density and the answer set of the constraint with the number c.
 *
 *   drawing, drawing_len  the drawing
 *   c                     the number of a constraint, from 0; all 32 bits count
 *   buffer, buffer_len    where the answer goes, 20 bytes or more
 *
 * BRENTIVEX_ANSWERED: writes the answer block, 20 bytes: the constraint's number (2), its top density as 16-bit two's
 * complement (2), then its answer set (16), object i at bit i mod 8 of byte i / 8, unused bits 0.
 * Every other code writes nothing: BRENTIVEX_CUT_SHORT to BRENTIVEX_BYTES_AFTER_END for a fault of the drawing;
 * BRENTIVEX_NO_SUCH_CONSTRAINT; BRENTIVEX_TOO_SHORT where buffer_len is below 20.
 */
uint32_t brentivex_one_constraint(const uint8_t *drawing, size_t drawing_len, uint32_t c, uint8_t *buffer,
                                  size_t buffer_len);

/*
 * Any dense: the lowest-numbered constraint whose top density is above K.
 *
 *   drawing, drawing_len  the drawing
 *   k                     K, from -64 to 8,191: -4 finds rigid parts of the plane, -3 overconstrained ones
 *   buffer, buffer_len    where the answer goes, 20 bytes or more
 *
 * BRENTIVEX_ANSWERED: writes the answer block of that constraint, 20 bytes, as one constraint does.
 * Every other code writes nothing: BRENTIVEX_CUT_SHORT to BRENTIVEX_BYTES_AFTER_END for a fault of the drawing;
 * BRENTIVEX_K_RANGE; BRENTIVEX_TOO_SHORT where buffer_len is below 20, also where none is dense; BRENTIVEX_NONE_DENSE.
 *
 * A lone coincidence, or two circles of given radius with the same centre, has density -2 and so is dense at -3.
 * A top density above K does not say that the drawing is mended by leaving that constraint out.
 */
uint32_t brentivex_any_dense(const uint8_t *drawing, size_t drawing_len, int32_t k, uint8_t *buffer,
                             size_t buffer_len);

/*
 * Sheet: shares that prove the top density of the constraint with the number c.
 *
 *   drawing, drawing_len  the drawing
 *   c                     the number of a constraint, from 0; all 32 bits count
 *   buffer, buffer_len    where the answer goes, 4 bytes a constraint or more
 *
 * BRENTIVEX_ANSWERED: writes 4 bytes a constraint, in the drawing's order: the share of its first end and the share of
 * its second, 2 bytes each, unsigned. The sheet is sound: the two shares of a constraint add up to no more than its
 * weight, the shares received by an object to no more than its weight, and the two ends of c receive nothing. Its claim
 * (all constraint weights less all shares, less the weights of c's two ends) is c's top density. Many sheets may be
 * sound with that claim; it is not said which of them is written.
 * Every other code writes nothing: BRENTIVEX_CUT_SHORT to BRENTIVEX_BYTES_AFTER_END for a fault of the drawing;
 * BRENTIVEX_NO_SUCH_CONSTRAINT; BRENTIVEX_TOO_SHORT where buffer_len is below 4 bytes a constraint.
 */
uint32_t brentivex_sheet(const uint8_t *drawing, size_t drawing_len, uint32_t c, uint8_t *buffer, size_t buffer_len);

/*
 * Check: whether a sheet for the constraint with the number c is sound and its claim is `claim`. A sheet that passes
 * proves that no set that holds c is denser than the claim.
 *
 *   drawing, drawing_len  the drawing
 *   c                     the number of a constraint, from 0; all 32 bits count
 *   sheet, sheet_len      the sheet, 4 bytes a constraint; any bytes after are ignored
 *   claim                 the density claimed; all 32 bits count
 *
 * Writes nothing. BRENTIVEX_ANSWERED: the sheet is sound and that is its claim. BRENTIVEX_NOT_SHOWN: it is not so.
 * Refused: BRENTIVEX_CUT_SHORT to BRENTIVEX_BYTES_AFTER_END for a fault of the drawing; BRENTIVEX_NO_SUCH_CONSTRAINT;
 * BRENTIVEX_TOO_SHORT where sheet_len is below 4 bytes a constraint.
 */
uint32_t brentivex_check(const uint8_t *drawing, size_t drawing_len, uint32_t c, const uint8_t *sheet,
                         size_t sheet_len, int32_t claim);

#ifdef __cplusplus
}
#endif

#endif
