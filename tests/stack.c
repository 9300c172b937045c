/* The calls on threads with little stack: vb_eliminate_in on 128 KB, vb_eliminate and vb_count on VB_STACK, and all others on VB_SMALL_STACK and the least that
 * a thread takes itself; and how much of a larger stack each call touches, against VB_SMALL_STACK and VB_STACK. The sheets: those named, and sheets as deep
 * as they may be, some with long results.
 *     stack SHEET..
 */
#define _GNU_SOURCE
#include <limits.h>
#include <pthread.h>
#include <stdio.h>
#include <stdlib.h>
#include <string.h>
#include <sys/mman.h>
#include "visebobbin.h"

enum { PAINTED = 1 << 21, PAINT = 0xa7, BIG = 1 << 17 };
static uint8_t sheet[BIG], result[2][VB_RESULT_BYTES], work[2][VB_RESULT_BYTES], room[VB_ROOM];
static size_t length;
static vb_reply replies[2];
static char *low; /* a painted stack: its lowest byte */
static size_t used;
static size_t most[3];

static void record(unsigned kind, const void *fields, size_t n) {
    uint16_t head[2] = {(uint16_t)(4 + n), (uint16_t)kind};
    memcpy(sheet + length, head, 4);
    if (n) memcpy(sheet + length + 4, fields, n);
    length += 4 + n;
}

static void counted(unsigned kind, uint16_t n) { record(kind, &n, 2); }

static void atom(unsigned kind, int x, int a, int y, int b, int constant) {
    int32_t numbers[9] = {0};
    numbers[x] = a;
    numbers[y] = b;
    numbers[8] = constant;
    record(kind, numbers, sizeof numbers);
}

/* Quantifiers, then lists of one and NOTs down to the last level, then bounds of variable 0 and a WINDOW. */
static void deep(int levels, int quantifiers, int nots, int bounds) {
    length = 0;
    for (int k = quantifiers - 1; k >= 0; k--) counted(k % 2 ? 8 : 7, (uint16_t)k);
    for (int k = quantifiers; k < levels - 2; k++) {
        if (nots && k % 2) record(4, 0, 0);
        else counted(5, 1);
    }
    counted(5, (uint16_t)(bounds + 1));
    for (int k = 0; k < bounds; k++) atom(1 + k % 3, 0, k % 2 ? -1 : 1, 1 + k % 6, k % 5 - 2, k);
    uint16_t window[5] = {7, 3, 0, 9, 0}; /* after a step a list of two, one level further in */
    record(9, window, sizeof window);
}

static void *in_room(void *painted) {
    (void)painted;
    replies[0] = vb_eliminate_in(sheet, length, result[0], VB_RESULT_BYTES, work[0], VB_RESULT_BYTES, room, VB_ROOM);
    return 0;
}

static void *alone(void *painted) {
    (void)painted;
    replies[1] = vb_eliminate(sheet, length, result[1], VB_RESULT_BYTES, work[1], VB_RESULT_BYTES);
    return 0;
}

static void *counting(void *painted) {
    (void)painted;
    vb_counted said = vb_count(sheet, length, result[1], VB_RESULT_BYTES, work[1], VB_RESULT_BYTES);
    replies[1] = (vb_reply){said.number, said.verdict, said.place, said.length};
    return 0;
}

static void *others(void *painted) {
    (void)painted;
    vb_read(sheet, length);
    vb_look(sheet, length);
    vb_test(sheet, length, 1, -2, 3, 4, 5, 6, 7, 8, 3);
    return 0;
}

static void *nothing(void *painted) { return painted; }

static void run(void *(*call)(void *), size_t stack) {
    pthread_attr_t attributes;
    pthread_t thread;
    pthread_attr_init(&attributes);
    if (stack) {
        if (pthread_attr_setstacksize(&attributes, stack)) { perror("stack size"); exit(2); }
    } else {
        memset(low, PAINT, PAINTED);
        if (pthread_attr_setstack(&attributes, low, PAINTED)) { perror("stack"); exit(2); }
    }
    if (pthread_create(&thread, &attributes, call, 0)) { perror("thread"); exit(2); }
    pthread_join(thread, 0);
    pthread_attr_destroy(&attributes);
    if (!stack) {
        size_t clean = 0;
        while (clean < PAINTED && (unsigned char)low[clean] == PAINT) clean++;
        used = PAINTED - clean;
    }
}

/* How much of the stack a call touches, beyond what a thread that does nothing does. */
static void measure(int what, void *(*call)(void *), size_t idle) {
    run(call, 0);
    if (used - idle > most[what]) most[what] = used - idle;
}

static void all(const char *name) {
    memset(result, 1, sizeof result);
    memset(work, 2, sizeof work);
    run(in_room, 131072);
    run(counting, VB_STACK);
    run(alone, VB_STACK);
    run(in_room, VB_SMALL_STACK + PTHREAD_STACK_MIN);
    run(others, VB_SMALL_STACK + PTHREAD_STACK_MIN);
    if (memcmp(&replies[0], &replies[1], sizeof *replies) || memcmp(result[0], result[1], VB_RESULT_BYTES) || memcmp(work[0], work[1], VB_RESULT_BYTES)) {
        printf("vb_eliminate and vb_eliminate_in differ on %s\n", name);
        exit(1);
    }
    run(nothing, 0);
    size_t idle = used;
    measure(0, in_room, idle);
    measure(1, alone, idle);
    measure(1, counting, idle);
    measure(2, others, idle);
}

int main(int argc, char **argv) {
    low = mmap(0, PAINTED, PROT_READ | PROT_WRITE, MAP_PRIVATE | MAP_ANONYMOUS, -1, 0);
    if (low == MAP_FAILED) { perror("mmap"); return 2; }
    for (int k = 1; k < argc; k++) {
        FILE *file = fopen(argv[k], "rb");
        if (!file) { perror(argv[k]); return 2; }
        length = fread(sheet, 1, sizeof sheet, file);
        fclose(file);
        all(argv[k]);
    }
    int sheets = argc - 1;
    for (int quantifiers = 0; quantifiers <= 4; quantifiers++)
        for (int nots = 0; nots < 2; nots++)
            for (int bounds = 2; bounds <= 20; bounds += 6) {
                deep(VB_SHEET_LEVELS, quantifiers, nots, bounds);
                all("a deep sheet");
                if (replies[0].number == VB_DEEP) { printf("a sheet of %u levels is refused\n", VB_SHEET_LEVELS); return 1; }
                sheets++;
            }
    for (int nots = 0; nots < 2; nots++) { /* one level more, which the other calls take */
        deep(VB_RESULT_LEVELS, 0, nots, 20);
        if (vb_read(sheet, length).number || vb_test(sheet, length, 1, 1, 1, 1, 1, 1, 1, 1, 1).number) { printf("a test of %u levels is refused\n", VB_RESULT_LEVELS); return 1; }
        run(others, VB_SMALL_STACK + PTHREAD_STACK_MIN);
        run(nothing, 0);
        measure(2, others, used);
        sheets++;
    }
    printf("%d sheets on threads of 128 KB, of %u bytes and of %u; stack touched at most: vb_eliminate_in %zu, vb_eliminate and vb_count %zu, the other calls %zu bytes\n", sheets,
           VB_STACK, VB_SMALL_STACK + (unsigned)PTHREAD_STACK_MIN, most[0], most[1], most[2]);
    if (most[0] > VB_SMALL_STACK || most[2] > VB_SMALL_STACK || most[1] > VB_STACK) {
        printf("more than the header states: VB_SMALL_STACK %u, VB_STACK %u\n", VB_SMALL_STACK, VB_STACK);
        return 1;
    }
    return 0;
}
