/* The users of a realm, from arguments and from a file, and a secret from a file. */
#ifndef STUN_USERS_H
#define STUN_USERS_H

#include "stunp_endpoint.h"

/* Adds the users from arguments, NAME PASSWORD and so on, to a table. If it fails, prints the
 * reason and returns false. */
bool add_words(stunp_endpoint_users *users, char **words, int count);

/* Adds the users of a file to a table; `-` is standard input. A line is `NAME PASSWORD`, or `NAME
 * 0xKEY [0xKEY]` with stored keys of 16 bytes (HMAC-SHA1) and of 32 (HMAC-SHA256) in hexadecimal.
 * `#` begins a comment. If a name occurs again, the later line replaces the earlier one. Reports
 * the number of each line that is not a user, and then returns false; the reason on standard error
 * begins with `what`. If the program is ending, returns false and prints nothing. Use it in one
 * thread at a time. */
bool add_file(stunp_endpoint_users *users, const char *path, const char *what);

/* Copies arguments, and overwrites the passwords among them: `ps` shows the arguments of a program
 * for as long as it runs, but not those that were overwritten. Returns NULL if an allocation
 * fails. */
char **hidden_words(char **words, int count);

/* Reads a secret of 32 bytes or 64 hexadecimal digits. If it fails, prints the reason and returns
 * false. */
bool read_secret(const char *path, uint8_t secret[32]);

#endif
