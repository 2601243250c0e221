/* Implements words.h on Linux. */
#define _GNU_SOURCE
#include "words.h"
#include "net.h"
#include <errno.h>
#include <stdio.h>
#include <stdlib.h>
#include <string.h>

/* ---- Options */

bool read_number(const char *word, unsigned long least, unsigned long most, unsigned long *number) {
    char *end;
    if (word == NULL || *word < '0' || *word > '9') return false;
    errno = 0; /* strtoul sets it if the number is above ULONG_MAX */
    *number = strtoul(word, &end, 10);
    return errno == 0 && *end == 0 && *number >= least && *number <= most;
}

static bool read_seconds(const char *word, unsigned long least, unsigned long most,
                         uint64_t *nanoseconds) {
    char *end;
    if (word == NULL || *word < '0' || *word > '9') return false;
    double seconds = strtod(word, &end);
    if (*end != 0 || !(seconds >= (double)least && seconds <= (double)most)) return false;
    *nanoseconds = (uint64_t)(seconds * (double)SECOND);
    return true;
}

/* Reads the value of an option. */
static bool read_value(const char *word, const struct option *option) {
    if (option->text != NULL) return (*option->text = word) != NULL;
    if (option->texts != NULL) {
        bool has_room = word != NULL && option->texts->count < MOST_TEXTS;
        if (has_room) option->texts->texts[option->texts->count++] = word;
        return has_room;
    }
    if (option->number != NULL)
        return read_number(word, option->least, option->most, option->number);
    return read_seconds(word, option->least, option->most, option->nanoseconds);
}

int read_options(int count, char **words, const struct option *options) {
    int left = 0, i = 1;
    for (; i < count && strcmp(words[i], "--") != 0; i++) {
        const struct option *one = options;
        while (one->name != NULL && strcmp(words[i], one->name) != 0) one++;
        if (one->name == NULL && words[i][0] == '-') return -1;
        if (one->name == NULL) words[left++] = words[i];
        else if (one->flag != NULL) *one->flag = true;
        else if (!read_value(words[++i], one)) return -1;
    }
    while (++i < count) words[left++] = words[i];
    return left;
}

/* ---- A user */

bool read_user(const char *path, char line[LONGEST_LINE], char *pair[2]) {
    bool is_input = strcmp(path, "-") == 0;
    char next[LONGEST_LINE] = "";
    FILE *file = is_input ? stdin : fopen(path, "re");
    if (file == NULL) {
        perror(path);
        return false;
    }
    setvbuf(file, NULL, _IONBF, 0); /* so that no other copy of a password is left */
    bool is_cut = false;
    *line = 0;
    while (!is_cut && fgets(next, sizeof next, file) != NULL) {
        size_t length = strcspn(next, "\r\n");
        is_cut = next[length] == 0 && length == sizeof next - 1;
        next[length] = 0;
        if (*next != 0) memcpy(line, next, sizeof next);
    }
    explicit_bzero(next, sizeof next);
    if (!is_input) fclose(file);
    pair[0] = line;
    pair[1] = strpbrk(line, " \t");
    if (pair[1] != NULL) *pair[1]++ = 0;
    if (is_cut) fprintf(stderr, "failed: a line of more than %d bytes\n", LONGEST_LINE - 2);
    else if (*line == 0) fprintf(stderr, "failed: nobody in the file\n");
    else if (pair[1] == NULL) fprintf(stderr, "failed: a line is `NAME PASSWORD`\n");
    return !is_cut && *line != 0 && pair[1] != NULL;
}
