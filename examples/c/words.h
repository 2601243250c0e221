/* The arguments of a command line, and a user from a file. */
#ifndef STUN_WORDS_H
#define STUN_WORDS_H

#include <stdbool.h>
#include <stddef.h>
#include <stdint.h>

/* The most texts of an option that may be repeated. */
enum { MOST_TEXTS = 16 };
struct texts {
    const char *texts[MOST_TEXTS];
    int count;
};

/* An option. It is a flag, or has a value: a text, one of several texts, a number, or seconds
 * within bounds. */
struct option {
    const char *name;
    bool *flag;
    const char **text;
    struct texts *texts;
    unsigned long *number;
    uint64_t *nanoseconds;
    unsigned long least, most;
};

bool read_number(const char *word, unsigned long least, unsigned long most, unsigned long *number);

/* Reads the options out of the arguments; the list of options ends with an option without a name.
 * Moves the other arguments to the front, and returns their number, or -1 if an option is wrong.
 * What follows `--` is not an option. */
int read_options(int count, char **words, const struct option *options);

/* Reads the last line `NAME PASSWORD` of a file, or of standard input if `path` is `-`, into
 * `line`, and sets `pair` to the name and the password in `line`. The name ends with the first
 * blank. Overwrite `line` after use. A line has at most LONGEST_LINE - 2 bytes. If it fails, prints
 * the reason on standard error and returns false. */
enum { LONGEST_LINE = 2048 };
bool read_user(const char *path, char line[LONGEST_LINE], char *pair[2]);

#endif
