/* The part of the library for C that is written by hand and not proved: handles with locks, ids with the number of their store, texts,
   the clients of a map, waiting, and fork. tools/guards.py puts it between the declarations of the proved functions and the guards. A
   guard checks its pointers before it calls a function of this file.

   Locks are taken in this order: the list of handles, handles by their numbers, the clients of maps. Only a fork takes the lock of a handle
   after that of the list. */
#include <pthread.h>
#include <sched.h>
#include <stdlib.h>
#include <string.h>
#include <time.h>

/* The proved functions have the layouts of these types. */
_Static_assert(sizeof(moc_store) == sizeof(void *) && sizeof(moc_client) == sizeof(void *), "a handle is a pointer");
_Static_assert(sizeof(moc_result) == 24 && offsetof(moc_result, first) == 8 && offsetof(moc_result, second) == 16, "a result");
_Static_assert(sizeof(moc_range) == 16 && offsetof(moc_range, to) == 8, "a range");
_Static_assert(sizeof(size_t) == 8 && sizeof(bool) == 1, "lengths have 64 bits");

/* ---- Handles */

/* What the handle of a store or a client points to. */
struct handle {
    pthread_mutex_t lock;
    struct handle *previous, *next;
    uint64_t number;
    union {
        moc_store store;
        moc_client client;
    } proved;
    /* Of a client: its map or NULL, its number, whether it has replies, and for how many milliseconds its calls wait. */
    struct map *map;
    uint64_t client_number;
    bool has_replies;
    uint32_t timeout;
};

/* A client of a map that no handle has, and its number. */
struct unused_client {
    moc_client client;
    uint64_t number;
};

/* A map: the number of handles that have its clients, the other clients, and the number of calls that go first because they have waited
   for long. */
struct map {
    size_t handle_count, unused_count;
    uint32_t first_calls;
    struct unused_client unused[];
};

/* The open handles, in the order of their numbers, and the last number. */
static struct handle *first_handle, *last_handle;
static uint64_t handle_number;
static pthread_mutex_t handles_lock = PTHREAD_MUTEX_INITIALIZER;
/* The lock of the clients of all maps. */
static pthread_mutex_t maps_lock = PTHREAD_MUTEX_INITIALIZER;

static moc_result failure(uint32_t code, uint64_t place)
{
    moc_result result = {code, place, 0};
    return result;
}

/* A fork waits until no other thread is in a call with a handle, so that the child can use all handles. */
static void before_fork(void)
{
    pthread_mutex_lock(&handles_lock);
    for (struct handle *handle = first_handle; handle; handle = handle->next)
        pthread_mutex_lock(&handle->lock);
    pthread_mutex_lock(&maps_lock);
}

static void after_fork(void)
{
    pthread_mutex_unlock(&maps_lock);
    for (struct handle *handle = first_handle; handle; handle = handle->next)
        pthread_mutex_unlock(&handle->lock);
    pthread_mutex_unlock(&handles_lock);
}

/* The calls of other threads do not continue in the child, so that none of them goes first there. */
static void after_fork_in_child(void)
{
    for (struct handle *handle = first_handle; handle; handle = handle->next)
        if (handle->map)
            __atomic_store_n(&handle->map->first_calls, 0, __ATOMIC_RELAXED);
    after_fork();
}

/* Returns whether forks take the locks, which the first call of this function arranges. Returns false if an allocation fails. */
static bool is_safe_to_fork(void)
{
    static bool is_arranged;
    pthread_mutex_lock(&handles_lock);
    if (!is_arranged)
        is_arranged = pthread_atfork(before_fork, after_fork, after_fork_in_child) == 0;
    bool is_safe = is_arranged;
    pthread_mutex_unlock(&handles_lock);
    return is_safe;
}

/* Returns a new handle that is not in the list, or NULL if an allocation fails. */
static struct handle *new_handle(void)
{
    struct handle *handle = is_safe_to_fork() ? calloc(1, sizeof *handle) : NULL;
    if (handle && pthread_mutex_init(&handle->lock, NULL) != 0) {
        free(handle);
        return NULL;
    }
    return handle;
}

static void free_handle(struct handle *handle)
{
    pthread_mutex_destroy(&handle->lock);
    free(handle);
}

/* Gives a handle the next number, and appends it to the list. */
static void append_handle(struct handle *handle)
{
    pthread_mutex_lock(&handles_lock);
    handle->number = ++handle_number;
    handle->previous = last_handle;
    *(last_handle ? &last_handle->next : &first_handle) = handle;
    last_handle = handle;
    pthread_mutex_unlock(&handles_lock);
}

/* Removes a handle from the list, and zeroes the pointer to it. The caller has the lock of the list. */
static struct handle *remove_handle(void **at)
{
    struct handle *handle = *at;
    *(handle->previous ? &handle->previous->next : &first_handle) = handle->next;
    *(handle->next ? &handle->next->previous : &last_handle) = handle->previous;
    *at = NULL;
    return handle;
}

/* Begins a call with a handle. No other thread is in a call with it until `leave`. */
static void enter(struct handle *handle)
{
    pthread_mutex_lock(&handle->lock);
}

static void leave(struct handle *handle)
{
    pthread_mutex_unlock(&handle->lock);
}

/* Begins a call with two different handles. */
static void enter_both(struct handle *a, struct handle *b)
{
    pthread_mutex_lock(a->number < b->number ? &a->lock : &b->lock);
    pthread_mutex_lock(a->number < b->number ? &b->lock : &a->lock);
}

/* Puts a new handle at `out` if its proved part is open, and frees it otherwise. Returns whether it is open. */
static bool finish_open(struct handle *handle, bool is_open, void **out)
{
    if (!is_open) {
        free_handle(handle);
        return false;
    }
    append_handle(handle);
    *out = handle;
    return true;
}

static bool open_store(moc_store *out)
{
    struct handle *handle = new_handle();
    return handle && finish_open(handle, moc_proved_store_open(&handle->proved.store), &out->at);
}

static void close_store(moc_store *store)
{
    pthread_mutex_lock(&handles_lock);
    struct handle *handle = remove_handle(&store->at);
    pthread_mutex_unlock(&handles_lock);
    moc_proved_store_close(handle->proved.store);
    free_handle(handle);
}

/* ---- Ids. The 16 high bits of an id are the number of its store, from 1. The other bits are the id that the proved functions use. */

enum { STORE_SHIFT = 48, STORE_COUNT = 65535 };

static uint64_t store_bits(const struct handle *store)
{
    return ((store->number - 1) % STORE_COUNT + 1) << STORE_SHIFT;
}

/* Returns the id that the proved functions use, or UINT64_MAX, which is not an id, if the id is of another store. */
static uint64_t proved_id(const struct handle *store, uint64_t id)
{
    uint64_t number = id ^ store_bits(store);
    return number >> STORE_SHIFT ? UINT64_MAX : number;
}

/* Returns the result of a call that makes a coverage in a store: with the id of the coverage; or with UINT64_MAX, and the position of the
   error as `second`. */
static moc_result id_result(moc_result result, struct handle *store)
{
    if (result.code == MOC_OK && result.first >> STORE_SHIFT) {
        (void)moc_proved_free(&store->proved.store, result.first);
        result = failure(MOC_MEMORY, 0);
    }
    if (result.code == MOC_OK) {
        result.first |= store_bits(store);
        return result;
    }
    return id_failure(result);
}

/* ---- Texts */

/* Returns a result whose `first` is the length of a new text, for `length` bytes. */
static moc_result new_text(moc_text *text, uint64_t length)
{
    text->bytes = malloc(length + 1);
    if (!text->bytes)
        return failure(MOC_MEMORY, 0);
    text->bytes[length] = 0;
    text->length = length;
    return (moc_result){MOC_OK, length, 0};
}

/* Copies the text that a call has made in a store. */
static moc_result store_text(moc_result result, struct handle *store, moc_text *text)
{
    if (result.code)
        return result;
    result = new_text(text, result.first);
    if (result.code)
        return result;
    return moc_proved_text(&store->proved.store, (uint8_t *)text->bytes, text->length);
}

static void free_text(moc_text *text)
{
    free(text->bytes);
    text->bytes = NULL;
    text->length = 0;
}

/* ---- Maps and their clients */

static bool open_client(moc_client *out)
{
    struct handle *handle = new_handle();
    return handle && finish_open(handle, moc_proved_client_open(&handle->proved.client), &out->at);
}

static void free_map(struct map *map)
{
    while (map->unused_count)
        moc_proved_client_close(map->unused[--map->unused_count].client);
    free(map);
}

/* Returns the record of a map with handles for all its clients but one, or NULL if an allocation fails. */
static struct map *new_map(uint8_t clients)
{
    struct map *map = malloc(sizeof *map + clients * sizeof map->unused[0]);
    if (!map)
        return NULL;
    map->handle_count = 1;
    map->first_calls = 0;
    for (map->unused_count = 0; map->unused_count + 1 < clients; map->unused_count++)
        if (!moc_proved_client_open(&map->unused[map->unused_count].client)) {
            free_map(map);
            return NULL;
        }
    return map;
}

/* Takes the other clients of a new map from its first client. If that fails, which needs more references than memory can have, the map
   has fewer clients. */
static void take_clients(struct map *map, moc_client *first)
{
    for (size_t i = 0; i < map->unused_count; i++) {
        moc_result joined = moc_proved_map_join(first, &map->unused[i].client);
        map->unused[i].number = joined.first;
        while (joined.code != MOC_OK && map->unused_count > i)
            moc_proved_client_close(map->unused[--map->unused_count].client);
    }
}

/* Begins a map, and keeps its other clients for `join_map`. */
static moc_result begin_map(struct handle *client, struct handle *store, uint64_t a, uint8_t clients)
{
    struct map *map = NULL;
    if (!client->map && 1 <= clients && clients <= MOC_MAX_CLIENTS && !(map = new_map(clients)))
        return failure(MOC_MEMORY, 0);
    moc_result result = moc_proved_map_begin(&client->proved.client, &store->proved.store, proved_id(store, a), clients);
    if (result.code == MOC_NO_SUCH_SET)
        result.first = a;
    if (result.code) {
        if (map)
            free_map(map);
        return result;
    }
    take_clients(map, &client->proved.client);
    client->map = map;
    client->client_number = result.first;
    return result;
}

/* Exchanges the unused client of a handle with a client of a map. */
static moc_result join_map(struct handle *client, struct handle *other)
{
    if (other->map)
        return failure(MOC_CLIENT_IN_USE, 0);
    if (!client->map)
        return failure(MOC_NO_MAP, 0);
    struct map *map = client->map;
    moc_client closed = other->proved.client;
    pthread_mutex_lock(&maps_lock);
    bool has_client = map->unused_count > 0;
    if (has_client) {
        const struct unused_client *last = &map->unused[--map->unused_count];
        other->proved.client = last->client;
        other->client_number = last->number;
        other->map = map;
        map->handle_count++;
    }
    pthread_mutex_unlock(&maps_lock);
    if (!has_client)
        return failure(MOC_NO_CLIENT, 0);
    moc_proved_client_close(closed);
    return (moc_result){MOC_OK, other->client_number, 0};
}

/* Gives the client of a handle back to its map. The map ends with its last handle. A fork happens before or after all this. */
static void close_client(moc_client *client)
{
    bool is_last = false;
    pthread_mutex_lock(&handles_lock);
    struct handle *handle = remove_handle(&client->at);
    struct map *map = handle->map;
    if (map) {
        pthread_mutex_lock(&maps_lock);
        map->unused[map->unused_count++] = (struct unused_client){handle->proved.client, handle->client_number};
        is_last = --map->handle_count == 0;
        pthread_mutex_unlock(&maps_lock);
    }
    pthread_mutex_unlock(&handles_lock);
    if (!map)
        moc_proved_client_close(handle->proved.client);
    if (is_last)
        free_map(map);
    free_handle(handle);
}

/* Executes a line. A line feed at its end is not part of it, as in a script. */
static moc_result apply_line(struct handle *client, const uint8_t *line, size_t length)
{
    size_t without_feed = length && line[length - 1] == '\n' ? length - 1 : length;
    moc_result result = moc_proved_map_apply(&client->proved.client, line, without_feed);
    client->has_replies |= result.code == MOC_OK;
    return result;
}

/* Copies the replies to the last line of a handle. Its client may have replies to lines of an earlier handle. */
static moc_result replies_of(struct handle *client, moc_text *text)
{
    uint8_t buffer[1024];
    if (!client->has_replies)
        return new_text(text, 0);
    moc_result result = moc_proved_map_answer(&client->proved.client, buffer, sizeof buffer);
    if (result.code && result.code != MOC_BUFFER_TOO_SHORT)
        return result;
    bool is_short = result.code == MOC_OK;
    result = new_text(text, result.first);
    if (result.code)
        return result;
    if (is_short)
        memcpy(text->bytes, buffer, text->length);
    else
        result = moc_proved_map_answer(&client->proved.client, (uint8_t *)text->bytes, text->length);
    if (result.code)
        free_text(text);
    return result;
}

static moc_result execute_line(struct handle *client, const uint8_t *line, size_t length, moc_text *text)
{
    moc_result result = apply_line(client, line, length);
    return result.code ? result : replies_of(client, text);
}

static moc_result set_timeout(struct handle *client, uint32_t milliseconds)
{
    client->timeout = milliseconds;
    return failure(MOC_OK, 0);
}

/* ---- Waiting */

/* The state of a call that may wait for parts of a map. */
struct wait {
    /* The number of failed tries after which the call goes first. */
    uint32_t tries_before_first;
    /* The number of failed tries so far, without those that were left out. */
    uint32_t tries;
    /* The timeout in milliseconds. */
    uint32_t timeout;
    /* The number of tries that were left out because other calls went first. */
    uint32_t left_out;
    /* The time at which the timeout has passed. It is set after the first failed try, unless the call waits without a limit. */
    struct timespec end;
    /* Whether the last try was left out. */
    bool is_left_out;
    /* The map of the client, or NULL. */
    struct map *map;
    /* The map in which the call goes first, or NULL if it does not. */
    struct map *first_in;
};

/* After how many tries a call goes first: a call that may need one part, such as a line, and a call that needs many parts. After
   each try of the first quarter of them, it lets other threads run and does not sleep. */
enum { TRIES_FOR_ONE = 16, TRIES_FOR_MANY = 1 };

/* After SHORT_TRIES a call sleeps longer. The pauses are in nanoseconds. A call leaves out at most MOST_LEFT_OUT tries for others. */
enum { SHORT_TRIES = 64, SHORT_PAUSE = 20000, LONG_PAUSE = 250000, MOST_LEFT_OUT = 16 };

/* Returns after how many tries a call on cells goes first. */
static uint32_t tries_for(size_t cells)
{
    return cells > 1 ? TRIES_FOR_MANY : TRIES_FOR_ONE;
}

/* Returns whether a call leaves out a try because other calls of its map go first. A call without a timeout never does. */
static bool leaves_out(const struct handle *client, struct wait *wait)
{
    wait->is_left_out = client->map && client->timeout && !wait->first_in && wait->left_out < MOST_LEFT_OUT
        && __atomic_load_n(&client->map->first_calls, __ATOMIC_RELAXED) > 0;
    return wait->is_left_out;
}

/* Notes the map of a client, and its timeout when its call tries first. To set another timeout does not change a call that waits. */
static void note_client(struct wait *wait, const struct handle *client)
{
    wait->map = client->map;
    if (!wait->tries && !wait->left_out)
        wait->timeout = client->timeout;
}

/* Counts a call that goes first. */
static void count_first(const struct wait *wait)
{
    if (wait->first_in)
        __atomic_fetch_add(&wait->first_in->first_calls, 1, __ATOMIC_RELAXED);
}

/* Ends the waiting of a call. */
static void end_wait(const struct wait *wait)
{
    if (wait->first_in)
        __atomic_fetch_sub(&wait->first_in->first_calls, 1, __ATOMIC_RELAXED);
}

/* Sleeps. The thread can be cancelled at the end only. A call that goes first is not counted at that moment, because a cancelled thread
   does not return to its call. */
static void sleep_for(const struct wait *wait, long nanoseconds)
{
    int state;
    pthread_setcancelstate(PTHREAD_CANCEL_DISABLE, &state);
    nanosleep(&(struct timespec){0, nanoseconds}, NULL);
    end_wait(wait);
    pthread_setcancelstate(state, &state);
    pthread_testcancel();
    count_first(wait);
}

static bool is_before(const struct timespec *a, const struct timespec *b)
{
    return a->tv_sec < b->tv_sec || (a->tv_sec == b->tv_sec && a->tv_nsec < b->tv_nsec);
}

/* Pauses after a try that found a part held or was left out, and returns true; or returns false if the timeout has passed. At first other
   threads run; later the thread sleeps. A call that goes first sleeps like any other, but other calls leave out some of their tries. */
static bool pause_for_retry(struct wait *wait)
{
    struct timespec now;
    if (wait->is_left_out) {
        wait->left_out++;
        sleep_for(wait, SHORT_PAUSE);
        return true;
    }
    if (!wait->timeout)
        return false;
    if (wait->timeout != MOC_NO_TIMEOUT) {
        clock_gettime(CLOCK_MONOTONIC, &now);
        if (!wait->tries) {
            wait->end = now;
            wait->end.tv_sec += wait->timeout / 1000;
            wait->end.tv_nsec += wait->timeout % 1000 * 1000000L;
            if (wait->end.tv_nsec >= 1000000000L) {
                wait->end.tv_nsec -= 1000000000L;
                wait->end.tv_sec++;
            }
        } else if (!is_before(&now, &wait->end)) {
            return false;
        }
    }
    if (wait->tries < UINT32_MAX)
        wait->tries++;
    if (wait->tries == wait->tries_before_first && wait->map) {
        wait->first_in = wait->map;
        count_first(wait);
    }
    if (wait->tries <= wait->tries_before_first / 4)
        sched_yield();
    else
        sleep_for(wait, wait->tries <= SHORT_TRIES ? SHORT_PAUSE : LONG_PAUSE);
    return true;
}

/* ---- Coverages of two stores */

/* A proved function on two coverages of a store. */
typedef moc_result proved_call(moc_store *store, uint64_t a, uint64_t b);

/* Copies a coverage of a handle to another one, and puts the id that the proved functions use at `copy`. The stores share its ranges. */
static moc_result copy_coverage(struct handle *from, uint64_t a, struct handle *to, uint64_t *copy)
{
    moc_result result = moc_proved_share(&from->proved.store, proved_id(from, a), &to->proved.store);
    if (result.code == MOC_NO_SUCH_SET)
        result.first = a;
    *copy = result.first;
    return result;
}

/* Calls a proved function with copies of coverages of two stores, which may be the same, in a new store. Frees the copies. The locks of the
   two stores are held while the coverages are copied, and that of the new store until the end. */
static moc_result call_on_copies(proved_call *call, struct handle *first, uint64_t a, struct handle *second, uint64_t b, struct handle *to)
{
    uint64_t copies[2] = {0, 0};
    if (first == second)
        enter(first);
    else
        enter_both(first, second);
    enter(to);
    moc_result result = copy_coverage(first, a, to, &copies[0]);
    if (result.code == MOC_OK)
        result = copy_coverage(second, b, to, &copies[1]);
    leave(first);
    if (first != second)
        leave(second);
    if (result.code == MOC_OK) {
        result = call(&to->proved.store, copies[0], copies[1]);
        (void)moc_proved_free(&to->proved.store, copies[0]);
        (void)moc_proved_free(&to->proved.store, copies[1]);
    }
    leave(to);
    return result;
}

/* Opens a store with the result of a proved function on coverages of two stores. */
static moc_result open_result(proved_call *call, struct handle *first, uint64_t a, struct handle *second, uint64_t b, moc_store *out)
{
    if (!open_store(out))
        return id_failure(failure(MOC_MEMORY, 0));
    moc_result result = id_result(call_on_copies(call, first, a, second, b, out->at), out->at);
    if (result.code)
        close_store(out);
    return result;
}

/* Returns the result of a proved function on coverages of two stores, which makes no coverage. */
static moc_result query_copies(proved_call *call, struct handle *first, uint64_t a, struct handle *second, uint64_t b)
{
    moc_store copies;
    if (!open_store(&copies))
        return failure(MOC_MEMORY, 0);
    moc_result result = call_on_copies(call, first, a, second, b, copies.at);
    close_store(&copies);
    return result;
}
