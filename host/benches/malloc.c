/* malloc and free of the C library that this is linked with: nanoseconds per pair, median of 15 runs (least to most). */
#include <stdio.h>
#include <stdlib.h>
#include <time.h>

static int by_value(const void *a, const void *b)
{
    double x = *(const double *)a, y = *(const double *)b;
    return (x > y) - (x < y);
}

int main(int argc, char **argv)
{
    static const size_t sizes[] = {12, 160, 1500, 9000, 65000};
    for (size_t k = 0; k < sizeof sizes / sizeof *sizes; k++) {
        double runs[15];
        for (int r = 0; r < 15; r++) {
            enum { TURNS = 20000 };
            struct timespec a, b;
            clock_gettime(CLOCK_MONOTONIC, &a);
            for (int i = 0; i < TURNS; i++) {
                void *volatile p = calloc(1, sizes[k]);
                free(p);
            }
            clock_gettime(CLOCK_MONOTONIC, &b);
            runs[r] = ((b.tv_sec - a.tv_sec) * 1e9 + (b.tv_nsec - a.tv_nsec)) / TURNS;
        }
        qsort(runs, 15, sizeof *runs, by_value);
        printf("%-8s calloc and free of %5zu bytes: %6.0f (%.0f to %.0f)\n", argc > 1 ? argv[1] : "", sizes[k], runs[7], runs[0], runs[14]);
    }
    return 0;
}
