/* Implements reload.h with POSIX threads. */
#define _GNU_SOURCE
#include "reload.h"
#include "processes.h"
#include <errno.h>
#ifdef __GLIBC__
#include <malloc.h>
#endif
#include <semaphore.h>
#include <string.h>

/* The thread sets the state of a reload to FILLED, or to ENDED if there are no new users. The loop
 * sets all other states. */
enum step { NONE, READING, FILLED, TAKEN, ENDED };

static struct {
    pthread_t thread;
    sem_t is_taken;
    enum step step; /* the thread and the loop use it, so it is read and written atomically */
    fill_users *fill;
    stunp_endpoint_users table; /* the new table; the old table once the loop has taken the new
                                 * one */
} reload;

static enum step step(void) { return __atomic_load_n(&reload.step, __ATOMIC_ACQUIRE); }
static void become(enum step next) { __atomic_store_n(&reload.step, next, __ATOMIC_RELEASE); }

/* Returns the memory of the old table to the system. The memory from which a thread allocates is
 * separate from the memory of the loop, so free memory of the one is of no use to a reload in the
 * other. */
static void give_memory_back(void) {
#ifdef __GLIBC__
    malloc_trim(0);
#endif
}

static void *read_users(void *unused) {
    (void)unused;
    if (reload.fill(&reload.table)) {
        become(FILLED);
        while (sem_wait(&reload.is_taken) != 0) continue;
        stunp_endpoint_users_free(&reload.table);
        give_memory_back();
    }
    become(ENDED);
    return NULL;
}

bool start_reload(fill_users *fill) {
    memset(&reload.table, 0, sizeof reload.table);
    reload.fill = fill;
    become(READING);
    int error = sem_init(&reload.is_taken, 0, 0) == 0
                    ? start_thread(&reload.thread, read_users, NULL)
                    : errno;
    if (error == 0) return true;
    become(NONE);
    complain("the users are unchanged: %s\n", strerror(error));
    return false;
}

bool go_on_with_reload(stunp_endpoint_users *users) {
    if (step() == FILLED) {
        const stunp_endpoint_users old = *users;
        *users = reload.table;
        reload.table = old;
        become(TAKEN);
        sem_post(&reload.is_taken);
    }
    if (step() != ENDED) return false;
    pthread_join(reload.thread, NULL);
    sem_destroy(&reload.is_taken);
    become(NONE);
    return true;
}

bool is_reloading(void) { return step() != NONE; }
