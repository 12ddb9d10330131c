/* Prints what one zvt_scan of a short message costs: scan_speed [CALLS], 5,000,000 where no number is named. The time is
 * processor time, the least of five runs. cc -O2 scan_speed.c -lzvt */
#define _POSIX_C_SOURCE 199309L
#include "zvt.h"
#include <stdio.h>
#include <stdlib.h>
#include <time.h>

static double seconds(void) {
    struct timespec now;
    clock_gettime(CLOCK_PROCESS_CPUTIME_ID, &now);
    return (double)now.tv_sec + (double)now.tv_nsec / 1e9;
}

int main(int count, char **words) {
    const uint8_t row[] = {0x06, 0x01, 0x0A, 0x04, 0x00, 0x00, 0x00, 0x00, 0x12, 0x34, 0x49, 0x09, 0x78};
    const long calls = count > 1 ? atol(words[1]) : 5000000;
    double least = 0;
    if (calls < 1) return 2;
    for (int run = 0; run < 5; run++) {
        const double start = seconds();
        for (long call = 0; call < calls; call++) {
            zvt_answer answer;
            zvt_scan(row, sizeof row, &answer);
            if (answer.status != ZVT_WHOLE || answer.size != sizeof row) return 1;
        }
        const double taken = seconds() - start;
        if (run == 0 || taken < least) least = taken;
    }
    printf("%zu bytes scanned in %.1f ns\n", sizeof row, least / (double)calls * 1e9);
    return 0;
}
