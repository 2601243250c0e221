/* Implements counters.h on Linux. */
#define _GNU_SOURCE
#include "counters.h"
#include "processes.h"
#include <errno.h>
#include <fcntl.h>
#include <stdio.h>
#include <string.h>
#include <sys/mman.h>
#include <sys/stat.h>
#include <unistd.h>

enum { METRICS_EVERY = 5 /* seconds */, LONGEST_LINE = 1000, LONGEST_FILE = 4096 };

/* Counters of the same kind have the same name, and differ in the value of a label. */
struct kind { const char *name, *label, *help; };
static const struct kind answered = {"answered", "", "Requests that succeeded."},
    refused = {"refused", "code", "Requests answered by an error."},
    dropped = {"dropped", "reason", "Datagrams without an answer."},
    cause = {"cause", "check", "Refused requests, by the first failed check."},
    not_binding = {"not_binding", "", "Other than Binding requests."};
static const struct { const struct kind *kind; const char *value; } rows[NUMBERS] = {
    {&answered, ""}, {&refused, "400"}, {&refused, "401"}, {&refused, "420"}, {&refused, "438"},
    {&dropped, "NotStun"}, {&dropped, "Malformed"}, {&dropped, "WrongFingerprint"},
    {&dropped, "UnknownAttribute"}, {&dropped, "OutOfMemory"}, {&dropped, "Other"},
    {&cause, "NoSignature"}, {&cause, "Incomplete"}, {&cause, "OtherAlgorithms"},
    {&cause, "OtherFeatures"}, {&cause, "StaleNonce"}, {&cause, "WrongCredentials"},
    {&cause, "UnknownAttribute"}, {&not_binding, ""},
};

static uint64_t (*counts)[NUMBERS];
static unsigned long processes, own;

bool open_counters(unsigned long number) {
    processes = number;
    counts = mmap(NULL, number * sizeof *counts, PROT_READ | PROT_WRITE,
                  MAP_SHARED | MAP_ANONYMOUS, -1, 0);
    return counts != MAP_FAILED;
}

void count_as(unsigned long process) { own = process; }

void count(enum number what) { __atomic_fetch_add(&counts[own][what], 1, __ATOMIC_RELAXED); }

const char *label_of(enum number what) { return rows[what].value; }

static unsigned long long sum_of(int what) {
    unsigned long long sum = 0;
    for (unsigned long i = 0; i < processes; i++)
        sum += __atomic_load_n(&counts[i][what], __ATOMIC_RELAXED);
    return sum;
}

void log_counters(void) {
    char line[LONGEST_LINE];
    int end = 0;
    for (int i = 0; i < NUMBERS; i++)
        end += snprintf(line + end, sizeof line - (size_t)end, " %s%s%s=%llu", rows[i].kind->name,
                        *rows[i].value != 0 ? "_" : "", rows[i].value, sum_of(i));
    say_at_time("%s\n", line + 1);
}

/* Writes the counters in the text format of Prometheus, and returns the length. */
static size_t text_of_metrics(char text[LONGEST_FILE]) {
    int end = 0;
    for (int i = 0; i < NUMBERS; i++) {
        const struct kind *kind = rows[i].kind;
        const size_t left = LONGEST_FILE - (size_t)end;
        if (i == 0 || kind != rows[i - 1].kind)
            end += snprintf(text + end, left,
                            "# HELP stun_%s_total %s\n# TYPE stun_%s_total counter\n",
                            kind->name, kind->help, kind->name);
        const char *format = *kind->label != 0 ? "stun_%s_total{%s=\"%s\"} %llu\n"
                                               : "stun_%s_total%s%s %llu\n";
        end += snprintf(text + end, LONGEST_FILE - (size_t)end, format, kind->name, kind->label,
                        rows[i].value, sum_of(i));
    }
    return (size_t)end;
}

bool write_metrics(const char *file) {
    char text[LONGEST_FILE], new[LONGEST_FILE];
    size_t length = text_of_metrics(text);
    if ((size_t)snprintf(new, sizeof new, "%s.new", file) >= sizeof new) {
        errno = ENAMETOOLONG;
        return false;
    }
    int to = open(new, O_WRONLY | O_CREAT | O_TRUNC | O_CLOEXEC | O_NOFOLLOW, 0644);
    if (to < 0) return false;
    bool is_whole = write(to, text, length) == (ssize_t)length;
    return close(to) == 0 && is_whole && rename(new, file) == 0;
}

static void *write_again(void *file) {
    for (bool was_right = true, is_right;; was_right = is_right) {
        sleep(METRICS_EVERY);
        is_right = write_metrics(file);
        if (was_right && !is_right) complain("%s: %s\n", (const char *)file, strerror(errno));
    }
    return NULL;
}

bool start_metrics(const char *file) {
    pthread_t thread;
    errno = start_thread(&thread, write_again, (void *)file);
    return errno == 0 && pthread_detach(thread) == 0;
}
