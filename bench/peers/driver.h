/* What the programs of this folder share: the sample, and a table of calls which are counted or
 * timed.
 *
 *     PROGRAM names              the names of its rows
 *     PROGRAM call NAME COUNT    makes a call so often, for callgrind
 *     PROGRAM time               prints "NAME NANOSECONDS" of each row: processor time, the least of
 *                                15 batches of 2,000 calls
 *
 * Each program defines `prepare` and a table `rows`, and ends with MAIN(rows). A call returns 0 if
 * its result was as it should be, and each is made once before anything is measured. */
#define _GNU_SOURCE
#include <stdbool.h>
#include <stdint.h>
#include <stdio.h>
#include <stdlib.h>
#include <string.h>
#include <time.h>

struct row {
    const char *name;
    int (*call)(void);
};

/* The request of RFC 5769, section 2.1, and its password. */
enum { SAMPLE_LENGTH = 108, PASSWORD_LENGTH = 22 };
static const uint8_t sample[SAMPLE_LENGTH] =
    "\x00\x01\x00\x58\x21\x12\xa4\x42\xb7\xe7\xa7\x01\xbc\x34\xd6\x86\xfa\x87\xdf\xae"
    "\x80\x22\x00\x10STUN test client\x00\x24\x00\x04\x6e\x00\x01\xff"
    "\x80\x29\x00\x08\x93\x2f\xf9\xb1\x51\x26\x3b\x36\x00\x06\x00\x09"
    "evtj:h6vY   \x00\x08\x00\x14\x9a\xea\xa7\x0c\xbf\xd8\xcb\x56\x78\x1e\xf2\xb5"
    "\xb2\xd3\xf2\x49\xc1\xb5\x71\xa2\x80\x28\x00\x04\xe5\x7a\x3b\xcf";
static const char password[] = "VOkJxbRl1RmTxUk/WvJxBt";

static double processor_time(void) {
    struct timespec time;
    clock_gettime(CLOCK_PROCESS_CPUTIME_ID, &time);
    return (double)time.tv_sec * 1e9 + (double)time.tv_nsec;
}

static double least_nanoseconds(int (*call)(void)) {
    double least = 1e18;
    for (int batch = 0; batch < 15; batch++) {
        double begun = processor_time();
        for (int count = 0; count < 2000; count++) call();
        double each = (processor_time() - begun) / 2000;
        if (each < least) least = each;
    }
    return least;
}

static int drive(const struct row *rows, int count, int argc, char **argv) {
    const char *mode = argc > 1 ? argv[1] : "";
    for (int i = 0; i < count; i++) {
        if (rows[i].call() != 0) {
            fprintf(stderr, "%s: %s: a wrong result\n", argv[0], rows[i].name);
            return 1;
        }
        if (strcmp(mode, "names") == 0) printf("%s\n", rows[i].name);
        if (strcmp(mode, "time") == 0)
            printf("%s %.1f\n", rows[i].name, least_nanoseconds(rows[i].call));
        if (argc == 4 && strcmp(mode, "call") == 0 && strcmp(rows[i].name, argv[2]) == 0)
            for (long left = atol(argv[3]); left > 0; left--) rows[i].call();
    }
    return 0;
}

#define MAIN(rows)                                                                                 \
    int main(int argc, char **argv) {                                                              \
        prepare();                                                                                 \
        return drive(rows, sizeof(rows) / sizeof *(rows), argc, argv);                             \
    }
