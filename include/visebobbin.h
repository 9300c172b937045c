/* Visebobbin: quantifiers removed from cue sheets. Link with libdesk.a (`tools/build desk`).
 *
 * Every call ends with a result or a numbered refusal and its place, for any bytes and any lengths: nothing has to be checked first.
 * The caller's duties, which no proof can see:
 *   - each pointer is valid for its length (it may be null, or anything, where the length is 0);
 *   - the buffers of one call do not overlap, and nothing else reads or writes them while the call runs;
 *   - the stack has room: see VB_STACK and VB_SMALL_STACK.
 * A call keeps nothing: no state, no allocation, no input or output. Calls on different buffers may run at the same time.
 */
#ifndef VISEBOBBIN_H
#define VISEBOBBIN_H

#include <stddef.h>
#include <stdint.h>

#ifdef __cplusplus
extern "C" {
#endif

/* Limits. */
#define VB_SHEET_BYTES 16384u   /* a sheet for vb_eliminate */
#define VB_SHEET_LEVELS 24u
#define VB_RESULT_BYTES 65536u  /* a result; a sheet for vb_test, vb_read and vb_look; the least length of both buffers */
#define VB_RESULT_LEVELS 25u
#define VB_MOST 1073741823      /* M: coefficients, constants, lo and hi lie in -M..M */
#define VB_TERMS 64u            /* boundary terms in one step */
#define VB_VALUE 1000000        /* values of a test lie in -VB_VALUE..VB_VALUE, its denominator in 1..VB_VALUE */
#define VB_ROOM 524288u         /* the least length of the room of vb_eliminate_in */
#define VB_STACK 716800u        /* bytes of stack that a call of vb_eliminate or vb_count may use */
#define VB_SMALL_STACK 40960u   /* bytes of stack that any other call may use */

/* Answers: the number of a reply. */
enum {
    VB_DONE = 0,
    VB_SHORT_BUFFER = 1,     /* result or work buffer under 65,536 bytes, or the room under VB_ROOM; place 0 */
    VB_LONG_SHEET = 2,       /* sheet longer than its limit; place 0 */
    VB_CUT = 3,              /* bytes run out; place: where that record starts or should start */
    VB_KIND = 4,             /* kind not 1..9; place: record */
    VB_LENGTH = 5,           /* length not the kind's; place: record */
    VB_VARIABLE = 6,         /* variable above 7; place: record */
    VB_NUMBER = 7,           /* coefficient, constant, lo or hi outside -M..M; place: record */
    VB_DEEP = 8,             /* nested too deep; place: record */
    VB_AFTER = 9,            /* bytes after the formula; place: first such byte */
    VB_MANY_TERMS = 10,      /* more than 64 boundary terms; place: quantifier */
    VB_BIG_NUMBER = 11,      /* a reduced number outside -M..M; place: quantifier */
    VB_LONG_RESULT = 12,     /* formula after a step over 65,536 bytes; place: quantifier, or the sheet's length in the finishing pass */
    VB_QUANTIFIER = 13,      /* test only: a quantifier is present; place: first one */
    VB_OUT_OF_RANGE = 14     /* test only: value or denominator out of range; place 0 */
};

/* Verdicts. */
enum { VB_FALSE = 0, VB_TRUE = 1, VB_OPEN = 2, VB_REFUSED = 3 };

typedef struct { uint64_t number, verdict, place, length; } vb_reply;
typedef struct { uint64_t number, verdict, place, length, steps, terms; } vb_counted;
typedef struct { uint64_t number, verdict, place; } vb_tested;
typedef struct { uint64_t number, place; } vb_place;
typedef struct { uint64_t at, length; } vb_part;

/* The sheet's condition with every "some" and "every" gone, at the start of the result buffer. Only the first 65,536 bytes of the two buffers
 * are ever written. After 0 the result buffer holds the result and then zeros, the work buffer zeros; after 1 to 9 neither has changed; after
 * 10 to 12 both hold zeros. */
vb_reply vb_eliminate(const uint8_t *sheet, size_t sheet_length, uint8_t *result, size_t result_length, uint8_t *work, size_t work_length);

/* The same, with the caller's room for what is copied, on little stack: for a thread that has not VB_STACK. The reply and both buffers are those of
 * vb_eliminate, except that a room under VB_ROOM bytes is answered by 1 too. Of the room only the first VB_ROOM bytes are ever written, and what they hold
 * afterwards means nothing; what they held before does not matter. */
vb_reply vb_eliminate_in(const uint8_t *sheet, size_t sheet_length, uint8_t *result, size_t result_length, uint8_t *work, size_t work_length,
                         uint8_t *room, size_t room_length);

/* vb_eliminate with two numbers more: the steps that were finished (one for each quantifier, where nothing is refused), and the most boundary terms in any step
 * that got past answer 10, so that a desk can show how near a sheet is to VB_TERMS. Both are 0 where the sheet is refused before its first step. Stack: VB_STACK. */
vb_counted vb_count(const uint8_t *sheet, size_t sheet_length, uint8_t *result, size_t result_length, uint8_t *work, size_t work_length);

/* Whether a quantifier-free sheet holds at p0/q .. p7/q: verdict 1 or 0, or 3 when refused. Writes nothing. */
vb_tested vb_test(const uint8_t *sheet, size_t sheet_length, int64_t p0, int64_t p1, int64_t p2, int64_t p3, int64_t p4, int64_t p5, int64_t p6,
                  int64_t p7, int64_t q);

/* Number (0 or 2 to 9) and place under the limits of a result. Writes nothing. */
vb_place vb_read(const uint8_t *sheet, size_t sheet_length);

/* Where the body of the last quantifier stands in the sheet; 0 and 0 where there is none or the sheet is refused. Writes nothing. */
vb_part vb_look(const uint8_t *sheet, size_t sheet_length);

#ifdef __cplusplus
}
#endif

#endif
