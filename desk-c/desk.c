/* A desk in C: shows what a cue sheet comes to once every "some" and "every" is gone. The example that a dome's programmer copies.
 *
 *   desk SHEET                      the delivered condition as text; "yes" or "no" where nothing is left to choose; or the refusal in words
 *   desk SHEET --at 1/2,3,-7/4      and whether the delivered condition holds at x0 = 1/2, x1 = 3, x2 = -7/4, the others 0
 *   desk SHEET --names a,b,c        with these names for x0, x1, x2
 *
 * Exit status: 0 for a result, 1 for a refusal, 2 for a bad call. Build: cc -O2 -Iinclude desk-c/desk.c libdesk.a
 */
#include <inttypes.h>
#include <stdio.h>
#include <string.h>
#include "visebobbin.h"

static const char *names[8] = {"x0", "x1", "x2", "x3", "x4", "x5", "x6", "x7"};

static const char *words(uint64_t number)
{
    switch (number) {
    case VB_SHORT_BUFFER: return "a buffer is under 65,536 bytes";
    case VB_LONG_SHEET: return "the sheet is longer than its limit";
    case VB_CUT: return "the bytes run out";
    case VB_KIND: return "a record's kind is not 1 to 9";
    case VB_LENGTH: return "a record's length is not its kind's";
    case VB_VARIABLE: return "a variable is above 7";
    case VB_NUMBER: return "a number is outside -1,073,741,823 to 1,073,741,823";
    case VB_DEEP: return "the sheet is nested too deep";
    case VB_AFTER: return "bytes follow the formula";
    case VB_MANY_TERMS: return "a quantifier has more than 64 boundary terms";
    case VB_BIG_NUMBER: return "a quantifier's step needs a number outside -1,073,741,823 to 1,073,741,823";
    case VB_LONG_RESULT: return "the condition would be over 65,536 bytes";
    case VB_QUANTIFIER: return "a quantifier is present";
    case VB_OUT_OF_RANGE: return "a value or the denominator is out of range";
    default: return "an unknown answer";
    }
}

static unsigned two(const uint8_t *p) { return p[0] | (unsigned)p[1] << 8; }

static int32_t four(const uint8_t *p)
{
    return (int32_t)(p[0] | (uint32_t)p[1] << 8 | (uint32_t)p[2] << 16 | (uint32_t)p[3] << 24);
}

/* One term of a sum, with its sign as an operator after the first. */
static void term(int32_t number, const char *name, int *first)
{
    int64_t size = number < 0 ? -(int64_t)number : number;
    if (*first)
        printf("%s", number < 0 ? "-" : "");
    else
        printf(" %s ", number < 0 ? "-" : "+");
    if (!name)
        printf("%" PRId64, size);
    else if (size == 1)
        printf("%s", name);
    else
        printf("%" PRId64 " %s", size, name);
    *first = 0;
}

/* The formula at p, a record of a delivered condition: an atom or a list. Returns where the next one starts. */
static const uint8_t *show(const uint8_t *p, int inside)
{
    unsigned kind = two(p + 2);
    if (kind <= 3) {
        static const char *const compared[] = {"", "<", "<=", "="};
        int first = 1;
        for (int v = 0; v < 8; v++)
            if (four(p + 4 + 4 * v) != 0)
                term(four(p + 4 + 4 * v), names[v], &first);
        if (four(p + 36) != 0 || first)
            term(four(p + 36), NULL, &first);
        printf(" %s 0", compared[kind]);
        return p + 40;
    }
    unsigned count = two(p + 4);
    if (count == 0)
        printf("%s", kind == 5 ? "true" : "false");
    if (inside && count > 0)
        printf("(");
    p += 6;
    for (unsigned i = 0; i < count; i++) {
        if (i > 0)
            printf("%s", kind == 5 ? " and " : " or ");
        p = show(p, 1);
    }
    if (inside && count > 0)
        printf(")");
    return p;
}

static int64_t common(int64_t a, int64_t b) { return b == 0 ? a : common(b, a % b); }

static const char not_fractions[] =
    "--at takes one to eight fractions with commas between them and no blanks, as 1/2,3,-7/4, each denominator above 0";
static const char out_of_range[] =
    "--at takes values in -1,000,000 to 1,000,000 over denominators up to 1,000,000, as written and also over the least common denominator";

/* The number whose digits stand at *text, and *text moved past them: -1 where there is no digit, VB_VALUE + 1 for any number above VB_VALUE. */
static int64_t digits(const char **text)
{
    int64_t number = -1;
    for (; **text >= '0' && **text <= '9'; ++*text) {
        number = (number < 0 ? 0 : 10 * number) + (**text - '0');
        if (number > VB_VALUE)
            number = VB_VALUE + 1;
    }
    return number;
}

/* One to eight fractions "1/2,3,.." as values over one denominator, the values not given 0: NULL, or what is wrong. A number above 1,000,000 is
 * refused as it is written, also in 2000000/2, so every product here is at most 1,000,000 times 1,000,000. */
static const char *fractions(const char *text, int64_t p[8], int64_t *q)
{
    int64_t sign[8] = {0}, top[8] = {0}, bottom[8] = {1, 1, 1, 1, 1, 1, 1, 1};
    for (int i = 0;; i++, text++) {
        sign[i] = *text == '-' ? -1 : 1;
        text += *text == '-';
        top[i] = digits(&text);
        if (*text == '/') {
            text++;
            bottom[i] = digits(&text);
        }
        if (top[i] < 0 || bottom[i] < 1)
            return not_fractions;
        if (!*text)
            break;
        if (*text != ',' || i == 7)
            return not_fractions;
    }
    *q = 1;
    for (int i = 0; i < 8; i++) {
        if (top[i] > VB_VALUE || bottom[i] > VB_VALUE)
            return out_of_range;
        int64_t both = common(top[i], bottom[i]);
        top[i] /= both;
        bottom[i] /= both;
        *q = *q / common(*q, bottom[i]) * bottom[i];
        if (*q > VB_VALUE)
            return out_of_range;
    }
    for (int i = 0; i < 8; i++) {
        p[i] = sign[i] * top[i] * (*q / bottom[i]);
        if (p[i] < -VB_VALUE || p[i] > VB_VALUE)
            return out_of_range;
    }
    return NULL;
}

static int refused(const char *what, uint64_t number, uint64_t place)
{
    printf("%s refused: %s (answer %" PRIu64 " at byte %" PRIu64 ")\n", what, words(number), number, place);
    return 1;
}

int main(int count, char **word)
{
    static uint8_t sheet[VB_SHEET_BYTES + 1], result[VB_RESULT_BYTES], work[VB_RESULT_BYTES];
    const char *at = NULL, *file = NULL;
    for (int i = 1; i < count; i++) {
        if (strcmp(word[i], "--at") == 0 && i + 1 < count)
            at = word[++i];
        else if (strcmp(word[i], "--names") == 0 && i + 1 < count)
            for (int v = 0; v < 8; v++) {
                char *name = strtok(v == 0 ? word[++i] : NULL, ",");
                if (name)
                    names[v] = name;
            }
        else if (!file)
            file = word[i];
        else
            file = "";
    }
    if (!file || !*file) {
        fprintf(stderr, "desk SHEET [--at 1/2,3,..] [--names a,b,..]\n");
        return 2;
    }
    int64_t p[8] = {0}, q = 1;
    const char *wrong = at ? fractions(at, p, &q) : NULL;
    if (wrong) {
        fprintf(stderr, "%s\n", wrong);
        return 2;
    }
    FILE *in = fopen(file, "rb");
    if (!in) {
        perror(file);
        return 2;
    }
    size_t length = fread(sheet, 1, sizeof sheet, in); /* one byte more than the limit, so that a long sheet is refused and not cut */
    if (ferror(in)) {
        perror(file);
        return 2;
    }
    fclose(in);

    vb_reply reply = vb_eliminate(sheet, length, result, sizeof result, work, sizeof work);
    if (reply.number != VB_DONE)
        return refused("The sheet is", reply.number, reply.place);
    if (reply.verdict == VB_TRUE)
        printf("yes\n");
    else if (reply.verdict == VB_FALSE)
        printf("no\n");
    else {
        show(result, 0);
        printf("\n");
    }
    if (at) {
        vb_tested tested = vb_test(result, reply.length, p[0], p[1], p[2], p[3], p[4], p[5], p[6], p[7], q);
        if (tested.number != VB_DONE)
            return refused("The test is", tested.number, tested.place);
        printf("there: %s\n", tested.verdict == VB_TRUE ? "yes" : "no");
    }
    return 0;
}
