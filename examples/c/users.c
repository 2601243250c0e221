/* Implements users.h. It reads one line at a time, so that a file may have any size. */
#define _GNU_SOURCE
#include "users.h"
#include "processes.h"
#include <errno.h>
#include <stdio.h>
#include <stdlib.h>
#include <string.h>

/* The longest line, with its end. */
enum { LONGEST_LINE = 2048 };

static bool fails(const char *what, const char *why) {
    complain("%s: %s\n", what, why);
    return false;
}

bool add_words(stunp_endpoint_users *users, char **words, int count) {
    for (int i = 0; i + 1 < count; i += 2) {
        int64_t answer = stunp_endpoint_users_add(users, words[i], strlen(words[i]), words[i + 1],
                                                  strlen(words[i + 1]));
        if (answer < 0) return fails(words[i], stunp_strerror(answer));
    }
    return true;
}

char **hidden_words(char **words, int count) {
    char **copies = calloc((size_t)count + 1, sizeof *copies);
    for (int i = 0; copies != NULL && i < count; i++)
        if ((copies[i] = strdup(words[i])) == NULL) return NULL;
    for (int i = 1; i < count; i += 2) explicit_bzero(words[i], strlen(words[i]));
    return copies;
}

/* Returns the value of a hexadecimal digit, or -1. */
static int value_of(char digit) {
    if (digit >= '0' && digit <= '9') return digit - '0';
    if (digit >= 'a' && digit <= 'f') return digit - 'a' + 10;
    return digit >= 'A' && digit <= 'F' ? digit - 'A' + 10 : -1;
}

/* Reads `count` hexadecimal digits as bytes, two digits for each. */
static bool read_hexadecimal(const char *letters, size_t count, uint8_t *bytes) {
    for (size_t i = 0; i < count; i++) {
        int value = value_of(letters[i]);
        if (value < 0) return false;
        bytes[i / 2] = (uint8_t)(i % 2 == 0 ? value << 4 : bytes[i / 2] | value);
    }
    return true;
}

/* Keys in place of a password. The length 0 means that there is no such key. */
struct keys {
    uint8_t sha1[16], sha256[32];
    size_t sha1_length, sha256_length;
};

/* Reads `0xKEY [0xKEY]`. Any other text is a password. */
static bool read_keys(const char *text, struct keys *keys) {
    *keys = (struct keys){.sha1_length = 0};
    for (const char *word = text; *word != 0;) {
        size_t length = strcspn(word, " \t");
        if (length < 2 || word[0] != '0' || word[1] != 'x') return false;
        if (length == 2 + 32) keys->sha1_length = 16;
        else if (length == 2 + 64) keys->sha256_length = 32;
        else return false;
        if (!read_hexadecimal(word + 2, length - 2, length == 2 + 32 ? keys->sha1 : keys->sha256))
            return false;
        word += length + (word[length] != 0);
    }
    return true;
}

/* Adds the user of a line. Returns STUNP_NOT_TEXT or another refusal if the line is not a user. */
static int64_t add_line(stunp_endpoint_users *users, char *line) {
    struct keys keys;
    size_t name = strcspn(line, " \t");
    const char *rest = line + name + (line[name] != 0);
    if (*line == 0 || *line == '#') return 0;
    if (name == 0 || *rest == 0) return STUNP_BAD_ARGUMENT;
    if (!read_keys(rest, &keys))
        return stunp_endpoint_users_add(users, line, name, rest, strlen(rest));
    int64_t answer = stunp_endpoint_users_add_keys(users, line, name, keys.sha1, keys.sha1_length,
                                                   keys.sha256, keys.sha256_length);
    explicit_bzero(&keys, sizeof keys);
    return answer;
}

/* Returns whether the program is ending, in any thread. */
static bool gives_up(void) { return __atomic_load_n(&is_ending, __ATOMIC_RELAXED) != 0; }

/* Adds the users of lines. Returns how many lines are not users, or -1 if it gave up, for example
 * because the program is ending. */
static long add_lines(stunp_endpoint_users *users, const char *path, const char *what,
                      FILE *file) {
    static char line[LONGEST_LINE];
    long bad = 0;
    unsigned long number = 1;
    for (; !gives_up() && fgets(line, sizeof line, file) != NULL; number++) {
        size_t length = strcspn(line, "\r\n");
        bool is_cut = line[length] == 0 && strlen(line) == sizeof line - 1;
        line[length] = 0;
        int64_t answer = is_cut ? STUNP_TEXT_TOO_LONG : add_line(users, line);
        if (answer == STUNP_OUT_OF_MEMORY || is_cut) {
            complain("%s%s, line %lu: %s\n", what, path, number, stunp_strerror(answer));
            bad = -1;
            break;
        }
        if (answer < 0) {
            complain("%s, line %lu: expected `NAME PASSWORD`\n", path, number);
            bad++;
        }
    }
    explicit_bzero(line, sizeof line);
    return gives_up() ? -1 : bad;
}

bool add_file(stunp_endpoint_users *users, const char *path, const char *what) {
    bool is_input = strcmp(path, "-") == 0;
    FILE *file = is_input ? stdin : fopen(path, "re");
    if (file == NULL) return fails(path, strerror(errno));
    /* Bytes that were read ahead are overwritten too. */
    static char ahead[BUFSIZ];
    setvbuf(file, ahead, _IOFBF, sizeof ahead);
    long bad = add_lines(users, is_input ? "standard input" : path, what, file);
    bool is_read = !ferror(file);
    if (is_read && bad > 0) complain("%s%s: bad lines: %ld\n", what, path, bad);
    if (!is_read && !gives_up()) fails(path, strerror(errno));
    if (!is_input) fclose(file);
    explicit_bzero(ahead, sizeof ahead);
    return is_read && bad == 0;
}

bool read_secret(const char *path, uint8_t secret[32]) {
    char text[128];
    FILE *file = fopen(path, "re");
    if (file == NULL) return fails(path, strerror(errno));
    setvbuf(file, NULL, _IONBF, 0);
    size_t length = fread(text, 1, sizeof text, file);
    fclose(file);
    bool is_raw = length == 32;
    if (is_raw) memcpy(secret, text, 32);
    while (length > 0 && strchr(" \t\r\n", text[length - 1]) != NULL) length--;
    bool is_right = is_raw || (length == 64 && read_hexadecimal(text, 64, secret));
    explicit_bzero(text, sizeof text);
    return is_right || fails(path, "a secret is 32 bytes, or 64 hexadecimal digits");
}
