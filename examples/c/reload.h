/* Reloads the users of a server while its loop serves: a thread fills the new table, the loop
 * replaces the old table between two datagrams, and the thread frees the old one. So the server
 * answers requests all the time, however many users there are. */
#ifndef STUN_RELOAD_H
#define STUN_RELOAD_H

#include "stunp_endpoint.h"

/* Fills a table that is all zero. If it fails, prints the reason, leaves the table empty and
 * returns false. The thread calls it. */
typedef bool fill_users(stunp_endpoint_users *table);

/* Starts a reload. Call it only if no reload is in progress. If it fails, prints the reason and
 * returns false. */
bool start_reload(fill_users *fill);

/* Continues a reload that is in progress. The loop calls this after each of its turns. It replaces
 * `users` once the new table is filled. Returns true once, when the reload has ended. */
bool go_on_with_reload(stunp_endpoint_users *users);

bool is_reloading(void);

#endif
