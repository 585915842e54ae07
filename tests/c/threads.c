/* Tests the locks of stores and clients, the clients that join again, waiting and forks, without the proved functions. library.py puts the
   guards and replacements of the proved functions before this file, and runs the program with the thread sanitizer. The replacement of
   `moc_map_apply` counts its calls in `tries`, and returns the code `applied` and the length of its line. That of `moc_map_join` returns 0,
   1, 2 and so on. */
#include "checks.h"

#include <signal.h>
#include <sys/wait.h>
#include <unistd.h>

enum { TURNS = 5000, CLIENTS = 4 };

static moc_store stores[2];
static moc_client client, waiting;
/* Whether an open handle has the client with a number. */
static int is_used[CLIENTS];
static bool is_ended;

/* Returns the length of the line that is executed for a line. */
static uint64_t executed_length(const char *line)
{
    return moc_map_apply(&client, (const uint8_t *)line, strlen(line)).first;
}

/* One line feed at the end is not part of a line. */
static void line_ends(void)
{
    CHECK(executed_length("") == 0 && executed_length("\n") == 0 && executed_length("\n\n") == 1);
    CHECK(executed_length("invert") == 6 && executed_length("invert\n") == 6 && executed_length("invert\r\n") == 7);
    CHECK(executed_length("\ninvert") == 7 && executed_length("invert\n\n") == 7 && executed_length("invert\r") == 7);
}

static double seconds_since(const struct timespec *start)
{
    struct timespec now;
    clock_gettime(CLOCK_MONOTONIC, &now);
    return (double)(now.tv_sec - start->tv_sec) + 1e-9 * (double)(now.tv_nsec - start->tv_nsec);
}

/* Returns how long a call with this timeout waits for a part that is never free. */
static double busy_seconds(uint32_t milliseconds)
{
    struct timespec start;
    clock_gettime(CLOCK_MONOTONIC, &start);
    CHECK(is(moc_map_busy_timeout(&client, milliseconds), MOC_OK, 0, 0));
    CHECK(moc_map_apply(&client, NULL, 0).code == MOC_BUSY);
    return seconds_since(&start);
}

static void *apply_once(void *result)
{
    *(moc_result *)result = moc_map_apply(&waiting, NULL, 0);
    return result;
}

/* A call waits until its timeout, and not longer. To set another timeout does not change a call that waits. */
static void timeouts(void)
{
    __atomic_store_n(&applied, MOC_BUSY, __ATOMIC_SEQ_CST);
    static const uint32_t TIMEOUTS[] = {0, 50, 999, 1100};
    for (size_t i = 0; i < sizeof TIMEOUTS / sizeof TIMEOUTS[0]; i++) {
        double seconds = busy_seconds(TIMEOUTS[i]), timeout = 0.001 * TIMEOUTS[i];
        CHECK(seconds >= timeout && seconds < timeout + 2);
    }
    pthread_t thread;
    moc_result result = {MOC_NULL, 0, 0};
    CHECK(is(moc_map_busy_timeout(&waiting, MOC_NO_TIMEOUT), MOC_OK, 0, 0));
    CHECK(pthread_create(&thread, NULL, apply_once, &result) == 0);
    nanosleep(&(struct timespec){0, 50000000}, NULL);
    CHECK(is(moc_map_busy_timeout(&waiting, 1), MOC_OK, 0, 0));
    nanosleep(&(struct timespec){0, 100000000}, NULL);
    __atomic_store_n(&applied, MOC_OK, __ATOMIC_SEQ_CST);
    CHECK(pthread_join(thread, NULL) == 0 && result.code == MOC_OK);
}

/* Returns how many calls go first in the map of a client. */
static uint32_t first_calls(const moc_client *of)
{
    const struct handle *handle = of->at;
    return __atomic_load_n(&handle->map->first_calls, __ATOMIC_SEQ_CST);
}

static void set_first_calls(uint32_t count)
{
    struct handle *handle = client.at;
    __atomic_store_n(&handle->map->first_calls, count, __ATOMIC_SEQ_CST);
}

/* Returns how many tries a call with this timeout leaves out before it tries. */
static uint32_t left_out_tries(uint32_t timeout)
{
    struct wait wait = {.tries_before_first = 1};
    uint32_t count = 0;
    CHECK(is(moc_map_busy_timeout(&client, timeout), MOC_OK, 0, 0));
    while (count < 1000 && leaves_out(client.at, &wait)) {
        note_client(&wait, client.at);
        CHECK(pause_for_retry(&wait));
        count++;
    }
    end_wait(&wait);
    return count;
}

/* While another call of the map goes first, a call with a timeout leaves out 16 tries, with 20 microseconds for each, and then tries. */
static void tries_left_out(void)
{
    struct timespec start;
    set_first_calls(1);
    CHECK(left_out_tries(0) == 0 && left_out_tries(1) == 16 && left_out_tries(MOC_NO_TIMEOUT) == 16);
    clock_gettime(CLOCK_MONOTONIC, &start);
    __atomic_store_n(&tries, 0, __ATOMIC_SEQ_CST);
    CHECK(moc_map_apply(&client, NULL, 0).code == MOC_OK);
    CHECK(tries == 1 && seconds_since(&start) >= 16 * 20e-6 && first_calls(&client) == 1);
    set_first_calls(0);
    CHECK(left_out_tries(MOC_NO_TIMEOUT) == 0);
}

/* A line goes first after 16 failed tries, until it ends. */
static void failed_tries(void)
{
    struct wait wait = {.tries_before_first = TRIES_FOR_ONE};
    for (int i = 1; i <= 20; i++) {
        CHECK(!leaves_out(client.at, &wait));
        note_client(&wait, client.at);
        CHECK(pause_for_retry(&wait) && first_calls(&client) == (i >= 16));
    }
    end_wait(&wait);
    CHECK(first_calls(&client) == 0 && tries_for(0) == 16 && tries_for(1) == 16 && tries_for(2) == 1);
}

/* A thread that is cancelled while its call goes first leaves no call that goes first. */
static void cancelled_calls(void)
{
    pthread_t thread;
    moc_result result;
    void *answer = NULL;
    CHECK(is(moc_map_busy_timeout(&waiting, MOC_NO_TIMEOUT), MOC_OK, 0, 0));
    __atomic_store_n(&applied, MOC_BUSY, __ATOMIC_SEQ_CST);
    CHECK(pthread_create(&thread, NULL, apply_once, &result) == 0);
    while (first_calls(&waiting) == 0)
        sched_yield();
    CHECK(pthread_cancel(thread) == 0 && pthread_join(thread, &answer) == 0 && answer == PTHREAD_CANCELED);
    CHECK(first_calls(&waiting) == 0);
    __atomic_store_n(&applied, MOC_OK, __ATOMIC_SEQ_CST);
    CHECK(moc_map_apply(&waiting, NULL, 0).code == MOC_OK);
}

/* In a forked child no call goes first, because the other threads are not there. In the parent nothing changes. */
static void first_calls_after_fork(void)
{
    int status = -1;
    set_first_calls(1);
    pid_t child = fork();
    if (child == 0) {
        alarm(20);
        _exit(first_calls(&client) == 0 && moc_map_apply(&client, NULL, 0).code == MOC_OK ? 0 : 1);
    }
    CHECK(child > 0 && waitpid(child, &status, 0) == child && status == 0);
    CHECK(first_calls(&client) == 1);
    set_first_calls(0);
}

/* Calls that go first, on a map of two clients. */
static void going_first(void)
{
    CHECK(is(moc_map_begin(&client, stores, 0, 2), MOC_OK, 0, 0));
    CHECK(moc_map_join(&client, &waiting).code == MOC_OK);
    tries_left_out();
    failed_tries();
    for (int i = 0; i < 20; i++)
        cancelled_calls();
    first_calls_after_fork();
    moc_client_close(&client);
    moc_client_close(&waiting);
    __atomic_store_n(&joined, 0, __ATOMIC_SEQ_CST);
    CHECK(moc_client_open(&client) && moc_client_open(&waiting));
}

static void *share_always(void *to)
{
    moc_store *target = to;
    for (int turn = 0; turn < TURNS; turn++)
        (void)moc_share(target == stores ? stores + 1 : stores, 0, target);
    return to;
}

/* Two threads share in opposite directions, and do not wait for each other forever. */
static void opposite_shares(void)
{
    pthread_t threads[2];
    for (int i = 0; i < 2; i++)
        CHECK(pthread_create(&threads[i], NULL, share_always, stores + i) == 0);
    for (int i = 0; i < 2; i++)
        CHECK(pthread_join(threads[i], NULL) == 0);
}

/* Calls with a coverage of each store, the two in an order that depends on the number. Returns the number of failed calls. */
static uintptr_t use_both(int number)
{
    moc_store opened;
    const moc_store *first = stores + number % 2, *second = stores + 1 - number % 2;
    uintptr_t failures = moc_open_union(first, 0, second, 0, &opened).code != MOC_OK;
    failures += moc_pair_meets(second, 0, first, 0).code != MOC_OK;
    moc_store_close(&opened);
    return failures;
}

static void *use_both_always(void *number)
{
    uintptr_t failures = 0;
    for (int turn = 0; turn < TURNS; turn++)
        failures += use_both(turn + *(int *)number);
    return (void *)failures;
}

/* Threads that call with both stores in opposite orders do not wait for each other forever, and a child can use both stores. */
static void calls_with_both(void)
{
    pthread_t threads[2];
    static int numbers[2] = {0, 1};
    for (int i = 0; i < 2; i++)
        CHECK(pthread_create(&threads[i], NULL, use_both_always, numbers + i) == 0);
    for (int i = 0; i < 100; i++) {
        pid_t child = fork();
        if (child == 0) {
            alarm(20);
            _exit(use_both(i) == 0 ? 0 : 1);
        }
        int status = -1;
        CHECK(child > 0 && waitpid(child, &status, 0) == child && status == 0);
    }
    for (int i = 0; i < 2; i++) {
        void *failures = threads;
        CHECK(pthread_join(threads[i], &failures) == 0 && failures == NULL);
    }
}

/* Joins the map, and leaves it. Returns the number of times in which another open handle had the client. */
static uintptr_t join_and_leave(int turns)
{
    uintptr_t failures = 0;
    for (int turn = 0; turn < turns && !__atomic_load_n(&is_ended, __ATOMIC_SEQ_CST); turn++) {
        moc_client joining;
        failures += !moc_client_open(&joining);
        moc_result joined = moc_map_join(&client, &joining);
        if (joined.code == MOC_OK) {
            failures += joined.first >= CLIENTS || __atomic_exchange_n(&is_used[joined.first], 1, __ATOMIC_SEQ_CST);
            __atomic_store_n(&is_used[joined.first % CLIENTS], 0, __ATOMIC_SEQ_CST);
        }
        failures += joined.code != MOC_OK && joined.code != MOC_NO_CLIENT;
        moc_client_close(&joining);
    }
    return failures;
}

static void *join_often(void *unused)
{
    (void)unused;
    return (void *)join_and_leave(TURNS);
}

static void joins(void)
{
    pthread_t threads[CLIENTS + 1];
    for (int i = 0; i <= CLIENTS; i++)
        CHECK(pthread_create(&threads[i], NULL, join_often, NULL) == 0);
    for (int i = 0; i <= CLIENTS; i++) {
        void *failures = threads;
        CHECK(pthread_join(threads[i], &failures) == 0 && failures == NULL);
    }
}

/* The only handle of the other client of a map. */
static moc_client only;

static void *open_and_close(void *unused)
{
    while (!__atomic_load_n(&is_ended, __ATOMIC_SEQ_CST)) {
        if (!moc_client_open(&only) || moc_map_join(&waiting, &only).code != MOC_OK)
            return &only;
        moc_client_close(&only);
    }
    return unused;
}

/* A client that is closed when the process forks either is open in the child, or can join again there. */
static void forks(void)
{
    pthread_t thread;
    void *failed = &only;
    CHECK(is(moc_map_begin(&waiting, stores, 0, 2), MOC_OK, 0, 0));
    CHECK(pthread_create(&thread, NULL, open_and_close, NULL) == 0);
    for (int i = 0; i < 200; i++) {
        pid_t child = fork();
        if (child == 0) {
            moc_client joining;
            alarm(20);
            bool is_right = moc_client_open(&joining);
            uint32_t code = moc_map_join(&waiting, &joining).code;
            /* The other client has no handle, or a handle that has joined. The handle may be open and not joined yet. */
            is_right &= only.at ? code == MOC_OK || code == MOC_NO_CLIENT : code == MOC_OK;
            _exit(is_right ? 0 : 1);
        }
        int status = -1;
        CHECK(child > 0 && waitpid(child, &status, 0) == child && status == 0);
    }
    __atomic_store_n(&is_ended, true, __ATOMIC_SEQ_CST);
    CHECK(pthread_join(thread, &failed) == 0 && failed == NULL);
}

int main(void)
{
    alarm(120);
    CHECK(moc_store_open(stores) && moc_store_open(stores + 1) && moc_client_open(&client) && moc_client_open(&waiting));
    line_ends();
    timeouts();
    going_first();
    opposite_shares();
    calls_with_both();
    CHECK(is(moc_map_begin(&client, stores, 0, CLIENTS), MOC_OK, 0, 0));
    joins();
    forks();
    moc_client_close(&client);
    moc_client_close(&waiting);
    moc_store_close(stores);
    moc_store_close(stores + 1);
    return report();
}
