/* A subject in C: a line in, a line out (GRAMMAR.md). Define `answer`, which prints what a call
 * answers, and end with `int main(void) { return play(); }`. */
#include <stdbool.h>
#include <stdint.h>
#include <stdio.h>
#include <stdlib.h>
#include <string.h>

enum { LONGEST_LINE = 1 << 20, MOST_BYTES = 1 << 18, MOST_WORDS = 16 };

typedef struct {
    uint8_t at[MOST_BYTES];
    size_t length;
} bytes;

static void answer(const char *call, char **words);

static void plain(const char *word, bytes *out) {
    out->length = 0;
    for (; *word != '\0' && *word != '-' && out->length < MOST_BYTES; word += 2) {
        unsigned one = 0;
        sscanf(word, "%2x", &one);
        out->at[out->length++] = (uint8_t)one;
    }
}

static void print_bytes(const uint8_t *at, size_t length) {
    if (length == 0) putchar('-');
    for (size_t i = 0; i < length; i++) printf("%02x", at[i]);
}

static const char *const class_names[] = {"request", "indication", "success", "error"};

static unsigned class_of(const char *name) {
    unsigned class = 0;
    while (class < 3 && strcmp(name, class_names[class]) != 0) class++;
    return class;
}

/* `IP:PORT` or `[IP]:PORT`, as the IP in `host` and the port. */
static int port_of(const char *word, char *host, size_t room) {
    const char *colon = strrchr(word, ':');
    bool is_long = word[0] == '[';
    snprintf(host, room, "%.*s", (int)(colon - word - 2 * is_long), word + is_long);
    return atoi(colon + 1);
}

static int play(void) {
    static char line[LONGEST_LINE];
    while (fgets(line, sizeof line, stdin) != NULL) {
        char *words[MOST_WORDS] = {0}, *call = strtok(line, " \n");
        for (int i = 0; i < MOST_WORDS && (words[i] = strtok(NULL, " \n")) != NULL; i++) {}
        if (strcmp(call, "reset") == 0) printf("done");
        else answer(call, words);
        putchar('\n');
        fflush(stdout);
    }
    return 0;
}
