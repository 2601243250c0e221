/* Handles that move from thread to thread. They are created in main, and passed to threads through
 * a queue with a mutex. Each set of handles passes through four threads in turn. One server of the
 * endpoint is used by four threads at the same time, while its users are replaced. Four threads
 * allocate from heap.c at the same time. check.sh runs it alone, and under ThreadSanitizer and
 * helgrind if they are installed.
 *
 *     threads [ROUNDS] */
#include "fixture.h"
#include <pthread.h>

enum { THREADS = 4, SETS = 6, LONGEST = 200 };

static uint32_t rounds = 200;

/* Handles of a server, its users and a client, which are passed on together. Their bytes are
 * copied, and the older copy is not used again. */
struct set {
    struct pair pair;
    stunp_endpoint_client client;
    uint32_t number, uses;
};

static struct set make_set(uint32_t number) {
    static const uint8_t seed[32] = {9};
    struct set set = {.pair = pair_of(STUNP_SHA1 | STUNP_SHA256), .number = number};
    stunp_endpoint_client_settings settings = STUNP_INIT(stunp_endpoint_client_settings);
    settings.server = address_of(2), settings.seed = seed, settings.accepts_unsigned = true;
    want("a client", stunp_endpoint_client_new(&set.client, &settings), 0);
    return set;
}

static void free_set(struct set *set) {
    free_pair(&set->pair);
    stunp_endpoint_client_free(&set->client);
}

/* A request that is sent, sent again once, and answered. */
static void use_client(stunp_endpoint_client *client, uint64_t now) {
    uint8_t bytes[64], again[64];
    stunp_address peer = address_of(2);
    stunp_event event = STUNP_INIT(stunp_event);
    stunp_drop why;
    uint64_t request;
    want("asked", stunp_endpoint_client_request(client, STUNP_BINDING, NULL, now, &request), 0);
    want("sent", stunp_endpoint_client_poll(client, now, bytes, sizeof bytes, &event),
         STUNP_TRANSMIT);
    now += SECOND / 2;
    want("sent again", stunp_endpoint_client_poll(client, now, again, sizeof again, &event),
         STUNP_TRANSMIT);
    want_same("the same", again, bytes, event.length);
    stunp_writer answer = stunp_write(STUNP_SUCCESS, STUNP_BINDING, bytes + 8, again,
                                      sizeof again);
    want("answered", stunp_endpoint_client_receive(client, again, answer.length, &peer, now, &why),
         STUNP_IS_RESPONSE);
    want("ended", stunp_endpoint_client_poll(client, now, bytes, sizeof bytes, &event),
         STUNP_ENDED);
}

/* The server challenges the client the first time, and validates its requests from then on. */
static void use(struct set *set) {
    stunp_address from = address_of(100 + set->number);
    if (set->uses == 0) challenge(&set->pair, &from, set->uses);
    else validate(&set->pair, &from, set->uses, STUNP_SHA256);
    use_client(&set->client, set->uses * SECOND);
    set->uses++;
}

static void start_all(pthread_t threads[THREADS], void *(*work)(void *), int numbers[THREADS]) {
    for (int i = 0; i < THREADS; i++) {
        numbers[i] = i;
        want("pthread_create", pthread_create(&threads[i], NULL, work, &numbers[i]), 0);
    }
}

static void run_all(void *(*work)(void *)) {
    pthread_t threads[THREADS];
    int numbers[THREADS];
    start_all(threads, work, numbers);
    for (int i = 0; i < THREADS; i++) want("pthread_join", pthread_join(threads[i], NULL), 0);
}

/* ---- A queue. Each thread takes the next set from its front, and puts it back at its end. */

static struct {
    pthread_mutex_t mutex;
    pthread_cond_t changed;
    struct set sets[SETS], done[SETS];
    int first, number, done_number;
} queue = {.mutex = PTHREAD_MUTEX_INITIALIZER, .changed = PTHREAD_COND_INITIALIZER};

static void put(const struct set *set) {
    pthread_mutex_lock(&queue.mutex);
    if (set->uses == rounds) queue.done[queue.done_number++] = *set;
    else queue.sets[(queue.first + queue.number++) % SETS] = *set;
    pthread_cond_broadcast(&queue.changed);
    pthread_mutex_unlock(&queue.mutex);
}

/* Takes the next set. Returns false once all sets are done. */
static bool take(struct set *set) {
    pthread_mutex_lock(&queue.mutex);
    while (queue.number == 0 && queue.done_number < SETS)
        pthread_cond_wait(&queue.changed, &queue.mutex);
    bool is_taken = queue.number > 0;
    if (is_taken) {
        *set = queue.sets[queue.first];
        queue.first = (queue.first + 1) % SETS;
        queue.number--;
    }
    pthread_mutex_unlock(&queue.mutex);
    return is_taken;
}

static void *work_queue(void *number) {
    struct set set;
    while (take(&set)) {
        use(&set);
        put(&set);
    }
    return number;
}

static void through_a_queue(void) {
    for (uint32_t i = 0; i < SETS; i++) {
        struct set set = make_set(i);
        put(&set);
    }
    run_all(work_queue);
    want("all are done", queue.done_number, SETS);
    for (int i = 0; i < SETS; i++) free_set(&queue.done[i]);
    want_no_blocks("through a queue");
}

/* ---- One set that each thread uses in its turn. Main made it, and the last thread frees it. */

static struct {
    pthread_mutex_t mutex;
    pthread_cond_t changed;
    struct set set;
    uint32_t turn;
} baton = {.mutex = PTHREAD_MUTEX_INITIALIZER, .changed = PTHREAD_COND_INITIALIZER};

static void *work_in_turn(void *number) {
    uint32_t own = (uint32_t) * (int *)number;
    for (uint32_t i = 0; i < rounds; i++) {
        pthread_mutex_lock(&baton.mutex);
        while (baton.turn != i * THREADS + own) pthread_cond_wait(&baton.changed, &baton.mutex);
        use(&baton.set);
        if (++baton.turn == rounds * THREADS) free_set(&baton.set);
        pthread_cond_broadcast(&baton.changed);
        pthread_mutex_unlock(&baton.mutex);
    }
    return number;
}

static void in_turn(void) {
    baton.set = make_set(SETS);
    run_all(work_in_turn);
    want("turns", baton.turn, rounds * THREADS);
    want_no_blocks("in turn");
}

/* ---- One server that all threads share, and users that main replaces while the threads judge
 * requests by them. */

static struct {
    stunp_endpoint_server server;
    stunp_endpoint_users tables[2];
    pthread_mutex_t mutex; /* the index of the table that is used */
    const stunp_endpoint_users *users;
} shared = {.mutex = PTHREAD_MUTEX_INITIALIZER};

static const stunp_endpoint_users *shared_users(const stunp_endpoint_users *others) {
    pthread_mutex_lock(&shared.mutex);
    if (others != NULL) shared.users = others;
    const stunp_endpoint_users *users = shared.users;
    pthread_mutex_unlock(&shared.mutex);
    return users;
}

/* A request of the user, and what the server answers it. */
static uint32_t judge(const struct user *user, int own, uint32_t number, uint8_t *out,
                      stunp_received *received) {
    stunp_address from = address_of(200u + (uint32_t)own);
    struct message request = message_of(STUNP_REQUEST, number);
    const stunp_endpoint_users *users = shared_users(NULL);
    stunp_writer writer = stunp_write_on((int64_t)request.length, request.bytes,
                                         sizeof request.bytes);
    write_signature(&writer, user);
    want("signed", stunp_written(&writer), 0);
    want("answered", stunp_endpoint_server_receive(&shared.server, users, request.bytes,
         writer.length, &from, 1000, out, STUNP_ANSWER_MAX, received), STUNP_ANSWER);
    return received->code;
}

static void *work_shared(void *number) {
    int own = *(int *)number;
    uint8_t *out = malloc(STUNP_ANSWER_MAX);
    struct user user = {0};
    stunp_received received = STUNP_INIT(stunp_received);
    want("401", judge(&user, own, 1, out, &received), 401);
    want("a 401", judge_response(&user, out, received.length), RESEND);
    for (uint32_t i = 0; i < rounds; i++) {
        want("success", judge(&user, own, i + 2, out, &received), 0);
        want("signed", judge_response(&user, out, received.length), STUNP_SHA256);
    }
    free(out);
    return number;
}

static void share(void) {
    pthread_t threads[THREADS];
    int numbers[THREADS];
    const uint8_t secret[32] = {5};
    stunp_endpoint_server_settings settings = STUNP_INIT(stunp_endpoint_server_settings);
    settings.realm = "realm", settings.secret = secret, settings.answers_binding = true;
    want("server", stunp_endpoint_server_new(&shared.server, &settings), 0);
    for (int i = 0; i < 2; i++) {
        stunp_endpoint_users *table = &shared.tables[i];
        want("users", stunp_endpoint_users_new(table, &shared.server), 0);
        want("user", stunp_endpoint_users_add(table, "name", 4, "password", 8), 0);
        shared_users(table);
        if (i == 0) start_all(threads, work_shared, numbers);
    }
    for (int i = 0; i < THREADS; i++) want("pthread_join", pthread_join(threads[i], NULL), 0);
    for (int i = 0; i < 2; i++) stunp_endpoint_users_free(&shared.tables[i]);
    stunp_endpoint_server_free(&shared.server);
    want_no_blocks("shared");
}

/* ---- The memory. */

static size_t bound;
static struct {
    size_t asked, refused;
} counts[THREADS];

static void fill(rattle_allocation block, size_t from, size_t to, int own) {
    for (size_t i = from; i < to; i++) ((uint8_t *)block.at)[i] = (uint8_t)(own + (int)i);
}

static void look_at(rattle_allocation block, size_t to, int own) {
    for (size_t i = 0; i < to; i++)
        want("a byte", ((uint8_t *)block.at)[i], (uint8_t)(own + (int)i));
}

/* Allocates a block, makes it grow and shrink, and frees it, even if some of these calls are
 * refused. */
static void *work_memory(void *number) {
    int own = *(int *)number;
    for (size_t i = 0; i < 10 * rounds; i++) {
        size_t length = 1 + i * 7 % LONGEST, other = 1 + i * 11 % (2 * LONGEST);
        rattle_allocation block = rattle_alloc(length, 8);
        counts[own].asked += 1u + block.is_ok;
        counts[own].refused += !block.is_ok;
        if (!block.is_ok) continue;
        fill(block, 0, length, own);
        size_t kept = length < other ? length : other;
        rattle_allocation more = rattle_realloc(block.at, kept, other, 8);
        counts[own].refused += !more.is_ok;
        if (more.is_ok) fill(more, kept, other, own);
        look_at(more.is_ok ? more : block, more.is_ok ? other : length, own);
        want("within the bound", stunp_heap_bytes() <= bound, true);
        rattle_dealloc(more.is_ok ? more.at : block.at);
    }
    return number;
}

/* Returns how many calls are refused if there is this much room. */
static size_t refused_within(size_t bytes) {
    size_t before = stunp_heap_asked(), asked = 0, refused = 0;
    memset(counts, 0, sizeof counts);
    bound = bytes;
    stunp_heap_bound(bound);
    run_all(work_memory);
    for (int i = 0; i < THREADS; i++) asked += counts[i].asked, refused += counts[i].refused;
    want("each is counted", (int64_t)(stunp_heap_asked() - before), (int64_t)asked);
    want_no_blocks("memory");
    return refused;
}

/* If there is room for all, only the call that is chosen is refused. If there is less, the bound is
 * never exceeded. */
static void memory(void) {
    want("none is refused", (int64_t)refused_within(THREADS * 3 * LONGEST), 0);
    stunp_heap_refuse(THREADS * rounds);
    want("one is refused", (int64_t)refused_within(THREADS * 3 * LONGEST), 1);
    stunp_heap_refuse(0);
    refused_within(2 * LONGEST);
    stunp_heap_bound(SIZE_MAX);
}

int main(int words_count, char **words) {
    if (words_count > 1) rounds = (uint32_t)strtoul(words[1], NULL, 10);
    want("rounds", rounds > 1, true);
    through_a_queue();
    in_turn();
    share();
    memory();
    puts("threads: passed");
    return 0;
}
