/* Libraries that eliminate, in turn over the same sheets, in one process.
 *     race [-s] NAME=LIBRARY.so.. -- SHEET..
 * Each library has vb_eliminate, or `eliminate` with the same arguments. Every library must give the first one's reply and bytes. A row: the sheet, its
 * bytes, the answer, the result's bytes, the median time of each library in microseconds and its ratio to the first, which is the median of the ratios of
 * rounds that follow each other. A sheet that the first refuses by 2 or 8 and another does not is passed over: the first has smaller limits. With -s only a
 * summary: the mean time of a sheet, the ratio of the sums, and the median, least and greatest ratio.
 */
#include <dlfcn.h>
#include <stdint.h>
#include <stdio.h>
#include <stdlib.h>
#include <string.h>
#include <time.h>

enum { MOST = 8, ROUNDS = 15, BUFFER = 65536 };
typedef struct { uint64_t number, verdict, place, length; } reply;
typedef reply call(const uint8_t *, size_t, uint8_t *, size_t, uint8_t *, size_t);

static call *calls[MOST];
static const char *names[MOST];
static int count;
static uint8_t sheet[1 << 17], result[MOST][BUFFER], work[MOST][BUFFER];

static double now(void) {
    struct timespec t;
    clock_gettime(CLOCK_MONOTONIC, &t);
    return t.tv_sec + t.tv_nsec * 1e-9;
}

static int order(const void *a, const void *b) {
    double x = *(const double *)a, y = *(const double *)b;
    return (x > y) - (x < y);
}

static double median(double *values, int n) {
    qsort(values, n, sizeof *values, order);
    return values[n / 2];
}

static void load(char *word) {
    char *file = strchr(word, '=');
    if (!file || count == MOST) { fprintf(stderr, "NAME=LIBRARY.so, at most %d\n", MOST); exit(2); }
    *file++ = 0;
    void *library = dlopen(file, RTLD_NOW | RTLD_LOCAL);
    if (!library) { fprintf(stderr, "%s\n", dlerror()); exit(2); }
    calls[count] = (call *)dlsym(library, "vb_eliminate");
    if (!calls[count]) calls[count] = (call *)dlsym(library, "eliminate");
    if (!calls[count]) { fprintf(stderr, "%s has no elimination\n", file); exit(2); }
    names[count++] = word;
}

int main(int argc, char **argv) {
    int at = 1, summary = 0, sheets = 0;
    if (at < argc && !strcmp(argv[at], "-s")) { summary = 1; at++; }
    for (; at < argc && strcmp(argv[at], "--"); at++) load(argv[at]);
    if (!count || at + 1 >= argc) { fprintf(stderr, "race [-s] NAME=LIBRARY.so.. -- SHEET..\n"); return 2; }
    int files = argc - at - 1;
    double sum[MOST] = {0}, *ratios = calloc((size_t)files * MOST, sizeof *ratios);
    if (!summary) {
        printf("| sheet | bytes | answer | result |");
        for (int k = 0; k < count; k++) printf(k ? " %s, µs | ratio |" : " %s, µs |", names[k]);
        printf("\n|---|---|---|---|");
        for (int k = 0; k < count; k++) printf(k ? "---|---|" : "---|");
        printf("\n");
    }
    for (at++; at < argc; at++) {
        FILE *file = fopen(argv[at], "rb");
        if (!file) { perror(argv[at]); return 2; }
        size_t n = fread(sheet, 1, sizeof sheet, file);
        fclose(file);
        reply said[MOST];
        int older = 0; /* the first has smaller limits and refuses the sheet */
        double slow = 0, middle[MOST];
        for (int k = 0; k < count; k++) {
            memset(result[k], 170, BUFFER);
            memset(work[k], 85, BUFFER);
            double start = now();
            said[k] = calls[k](sheet, n, result[k], BUFFER, work[k], BUFFER);
            double took = now() - start;
            if (took > slow) slow = took;
            if (memcmp(&said[k], &said[0], sizeof *said) || memcmp(result[k], result[0], BUFFER) || memcmp(work[k], work[0], BUFFER)) {
                older = said[0].number == 2 || said[0].number == 8;
                printf(older ? "%s refuses what %s does not, by its limits: %s is passed over\n" : "%s and %s differ on %s\n", names[0], names[k], argv[at]);
                if (!older) return 1;
                break;
            }
        }
        if (older) continue;
        int rounds = slow > 0.2 ? 3 : ROUNDS, inner = (int)((summary ? 0.0005 : 0.003) / slow) + 1;
        static double took[MOST][ROUNDS], ratio[MOST][ROUNDS];
        for (int r = 0; r < rounds; r++) {
            for (int k = 0; k < count; k++) {
                double start = now();
                for (int i = 0; i < inner; i++) calls[k](sheet, n, result[0], BUFFER, work[0], BUFFER);
                took[k][r] = (now() - start) / inner;
            }
            for (int k = 0; k < count; k++) ratio[k][r] = took[k][r] / took[0][r];
        }
        for (int k = 0; k < count; k++) {
            middle[k] = median(took[k], rounds);
            sum[k] += middle[k];
            ratios[k * files + sheets] = median(ratio[k], rounds);
        }
        if (!summary) {
            const char *name = strrchr(argv[at], '/');
            printf("| %s | %zu | %d | %d |", name ? name + 1 : argv[at], n, (int)said[0].number, (int)said[0].length);
            for (int k = 0; k < count; k++) {
                printf(" %.1f |", middle[k] * 1e6);
                if (k) printf(" %.2f |", ratios[k * files + sheets]);
            }
            printf("\n");
            fflush(stdout);
        }
        sheets++;
    }
    for (int k = 0; k < count && (summary || sheets > 1); k++) {
        double *r = ratios + k * files;
        qsort(r, sheets, sizeof *r, order);
        printf("%s: %.2f µs a sheet over %d; of %s's time %.3f in all, by sheet median %.3f, least %.3f, greatest %.3f\n", names[k], sum[k] / sheets * 1e6, sheets, names[0],
               sum[k] / sum[0], r[sheets / 2], r[0], r[sheets - 1]);
    }
    return 0;
}
