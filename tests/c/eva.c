/* Models of what the guards and handles.c call, and the calls that Frama-C's plug-in Eva follows. analysis.py puts the guards before this
   file, and after it models of the other proved functions and `any_call`. Eva follows all values of arguments, all results of the proved
   functions and all failing allocations, in one thread. It reports each access to memory that may be freed, outside a block or not
   initialized, and each requirement below that may not hold. */
#include "__fc_builtin.h"

/* Eva reports each call whose argument may be false. */
/*@ requires holds; assigns \nothing; */
void require(bool holds);

static bool any(void)
{
    return Frama_C_interval(0, 1);
}

static uint32_t any_code(void)
{
    return any() ? MOC_OK : any() ? Frama_C_unsigned_int_interval(1, MOC_BUSY - 1) : Frama_C_unsigned_int_interval(MOC_BUSY + 1, 100);
}

static moc_result any_result(void)
{
    moc_result result = {any_code(), Frama_C_unsigned_long_interval(0, UINT64_MAX), Frama_C_unsigned_long_interval(0, UINT64_MAX)};
    return result;
}

/* ---- Memory */

/* The number of blocks that are not freed. */
static int blocks;

void *model_malloc(size_t size)
{
    /* Eva knows the size of a block only if all blocks of the same call have this size. */
    void *block = size == 1 ? malloc(1) : size == 21 ? malloc(21) : size == 40 ? malloc(40) : size == 56 ? malloc(56)
                  : size == 72 ? malloc(72) : malloc(size);
    blocks += block != NULL;
    return block;
}

void *model_calloc(size_t count, size_t size)
{
    void *block = calloc(count, size);
    blocks += block != NULL;
    return block;
}

void model_free(void *block)
{
    blocks -= block != NULL;
    free(block);
}

/* ---- Locks. A lock is 0 if it is free, 1 if it is taken, and 2 if it is destroyed. They are taken in the order that handles.c states. */

/* The number of handles whose lock is taken, and the number of the last one that was locked. */
static int locked_handles;
static uint64_t last_locked;

int pthread_mutex_init(pthread_mutex_t *lock, const pthread_mutexattr_t *attributes)
{
    (void)attributes;
    lock->_fc = 0;
    return any();
}

int pthread_mutex_lock(pthread_mutex_t *lock)
{
    require(lock->_fc == 0 && maps_lock._fc == 0);
    if (lock == &handles_lock) {
        require(locked_handles == 0);
    } else if (lock != &maps_lock) {
        struct handle *handle = (struct handle *)lock;
        require(locked_handles == 0 || last_locked < handle->number);
        last_locked = handle->number;
        locked_handles++;
    }
    lock->_fc = 1;
    return 0;
}

int pthread_mutex_unlock(pthread_mutex_t *lock)
{
    require(lock->_fc == 1);
    lock->_fc = 0;
    if (lock != &handles_lock && lock != &maps_lock)
        locked_handles--;
    return 0;
}

int pthread_mutex_destroy(pthread_mutex_t *lock)
{
    require(lock->_fc == 0);
    lock->_fc = 2;
    return 0;
}

/* What a fork calls before it, after it in the parent, and after it in the child. */
static void (*fork_functions[3])(void);

int pthread_atfork(void (*before)(void), void (*in_parent)(void), void (*in_child)(void))
{
    if (any())
        return 1;
    fork_functions[0] = before;
    fork_functions[1] = in_parent;
    fork_functions[2] = in_child;
    return 0;
}

/* ---- Waiting. No lock is taken meanwhile. */

/* A map of which some calls go first, apart from that of `any_pause`. */
enum { FIRST_CALLS = 5 };
static struct map waited_for = {.first_calls = FIRST_CALLS};

/* Whether the thread may be cancelled. */
static int cancel_state = PTHREAD_CANCEL_ENABLE;

int pthread_setcancelstate(int state, int *previous)
{
    require(state == PTHREAD_CANCEL_ENABLE || state == PTHREAD_CANCEL_DISABLE);
    *previous = cancel_state;
    cancel_state = state;
    return 0;
}

/* A thread that is cancelled leaves no lock taken, and no call that goes first. */
void pthread_testcancel(void)
{
    require(cancel_state == PTHREAD_CANCEL_ENABLE && locked_handles == 0 && waited_for.first_calls == FIRST_CALLS);
}

int clock_gettime(clockid_t clock, struct timespec *now)
{
    (void)clock;
    now->tv_sec = Frama_C_long_interval(0, INT32_MAX);
    now->tv_nsec = Frama_C_long_interval(0, 999999999);
    return 0;
}

/* A thread that is cancelled while it sleeps would not end its wait. */
int nanosleep(const struct timespec *time, struct timespec *rest)
{
    require(0 <= time->tv_nsec && time->tv_nsec <= 999999999 && rest == NULL && locked_handles == 0);
    require(cancel_state == PTHREAD_CANCEL_DISABLE);
    return 0;
}

int sched_yield(void)
{
    require(locked_handles == 0);
    return 0;
}

/* ---- The proved functions, by what their contracts state */

/* A store or a client of the proved functions is a pointer to its state in this array. */
enum { CLOSED, OPEN, HAS_MAP, STATES = 16 };
static int states[STATES];
/* The number of states that were ever opened, and of those that are not closed. */
static int opened, still_open;
/* How often functions still find a part held, and the length of the text that a store has. */
static int busy_left;
static uint64_t text_length;

static bool open_state(void **at)
{
    if (any())
        return false;
    require(opened < STATES);
    states[opened] = OPEN;
    *at = &states[opened];
    opened++;
    still_open++;
    return true;
}

static void close_state(void *at)
{
    require(*(int *)at != CLOSED);
    *(int *)at = CLOSED;
    still_open--;
}

static void use(const void *at)
{
    require(*(const int *)at != CLOSED);
}

static void read_array(const void *at, size_t size)
{
    //@ assert readable: size == 0 || (\valid_read((const char *)at + (0 .. size - 1)) && \initialized((const char *)at + (0 .. size - 1)));
    (void)at;
    (void)size;
}

static void write_array(void *at, size_t size)
{
    //@ assert writable: size == 0 || \valid((char *)at + (0 .. size - 1));
    if (size)
        Frama_C_make_unknown(at, size);
}

/* The result of a function that makes a text in a store. The caller then copies the text. */
static moc_result text_result(void)
{
    if (any())
        return (moc_result){Frama_C_unsigned_int_interval(1, 9), 0, 0};
    text_length = any() ? 0 : 20;
    return (moc_result){MOC_OK, text_length, 0};
}

/* The result of a function that may find a part held. A call is repeated at most twice, so that its analysis ends. */
static moc_result busy_result(void)
{
    if (busy_left == 0 || any())
        return any_result();
    busy_left--;
    return (moc_result){MOC_BUSY, Frama_C_unsigned_long_interval(0, 11), Frama_C_unsigned_long_interval(0, 63)};
}

bool moc_proved_store_open(moc_store *out)
{
    return open_state(&out->at);
}

void moc_proved_store_close(moc_store store)
{
    close_state(store.at);
}

bool moc_proved_client_open(moc_client *out)
{
    return open_state(&out->at);
}

void moc_proved_client_close(moc_client client)
{
    close_state(client.at);
}

moc_result moc_proved_text(moc_store *store, uint8_t *out, size_t length)
{
    use(store->at);
    require(length == text_length);
    write_array(out, length);
    return (moc_result){MOC_OK, length, 0};
}

enum { SHORT_REPLY = 20, LONG_REPLY = 1500 };

moc_result moc_proved_map_answer(moc_client *client, uint8_t *out, size_t length)
{
    use(client->at);
    if (any())
        return (moc_result){MOC_MEMORY, 0, 0};
    /* The replies are shorter than the first buffer, or longer. */
    if (length < LONG_REPLY && any())
        return (moc_result){MOC_BUFFER_TOO_SHORT, LONG_REPLY, 0};
    uint64_t written = length < LONG_REPLY ? SHORT_REPLY : LONG_REPLY;
    write_array(out, written);
    return (moc_result){MOC_OK, written, 0};
}

moc_result moc_proved_map_begin(moc_client *client, moc_store *store, uint64_t a, uint8_t clients)
{
    use(store->at);
    use(client->at);
    (void)a;
    if (*(int *)client->at == HAS_MAP)
        return (moc_result){MOC_CLIENT_IN_USE, 0, 0};
    if (clients < 1 || MOC_MAX_CLIENTS < clients || any())
        return (moc_result){any() ? MOC_NO_SUCH_SET : MOC_MEMORY, 0, 0};
    *(int *)client->at = HAS_MAP;
    return (moc_result){MOC_OK, clients - 1, 0};
}

moc_result moc_proved_map_join(moc_client *client, moc_client *other)
{
    require(*(int *)client->at == HAS_MAP && *(int *)other->at == OPEN);
    if (any())
        return (moc_result){MOC_NO_CLIENT, 0, 0};
    *(int *)other->at = HAS_MAP;
    return (moc_result){MOC_OK, Frama_C_unsigned_long_interval(0, 63), 0};
}

/* ---- Calls with any arguments. A pointer is null, or is aligned, and overlaps no other argument. An array has as many elements as its
   length states. */

static moc_store stores[2], no_store, new_store;
static moc_client clients[3], no_client;
static moc_text texts[1];
static uint64_t elements[32];

/* Where a call opens a store. */
static moc_store *any_new_store(void)
{
    return any() ? &new_store : NULL;
}

static moc_store *any_store(void)
{
    return any() ? any() ? NULL : &no_store : any() ? stores : stores + 1;
}

static moc_client *any_open_client(void)
{
    return any() ? clients : any() ? clients + 1 : clients + 2;
}

static moc_client *any_client(void)
{
    return any() ? any() ? NULL : &no_client : any_open_client();
}

static moc_text *any_text(void)
{
    return any() ? NULL : texts;
}

static size_t any_length(void)
{
    return any() ? 0 : 4;
}

static void *any_array(void)
{
    return any() ? NULL : elements;
}

static uint64_t any_number(void)
{
    return Frama_C_unsigned_long_interval(0, UINT64_MAX);
}

static uint32_t any_small_number(void)
{
    return Frama_C_unsigned_int_interval(0, UINT32_MAX);
}

static uint32_t any_client_count(void)
{
    return any() ? 1 : any() ? 3 : any() ? 0 : Frama_C_unsigned_int_interval(MOC_MAX_CLIENTS + 1, UINT32_MAX);
}

/* A call that fails has no text, and a text can be freed. */
static void check_text(moc_result result)
{
    require(result.code == MOC_OK || texts[0].bytes == NULL);
    moc_text_free(texts);
    require(texts[0].bytes == NULL);
}

/* Makes any call of ploverchaise.h, with any arguments. */
static void any_call(void);

/* After each call, all locks are free. Forgets what no later call depends on. */
static void end_step(void)
{
    require(locked_handles == 0 && handles_lock._fc == 0 && maps_lock._fc == 0);
    last_locked = 0;
    text_length = 0;
    busy_left = 2;
}

/* A pause after any number of tries, and the end of the call, after which as many calls go first as before. */
static void any_pause(void)
{
    struct wait wait = {
        .tries_before_first = any_small_number(),
        .tries = any_small_number(),
        .timeout = any_small_number(),
        .left_out = any_small_number(),
        .end = {Frama_C_long_interval(0, INT64_MAX / 2), Frama_C_long_interval(0, 999999999)},
        .is_left_out = any(),
        .map = any() ? &waited_for : NULL,
    };
    (void)pause_for_retry(&wait);
    end_wait(&wait);
    require(waited_for.first_calls == FIRST_CALLS && cancel_state == PTHREAD_CANCEL_ENABLE);
}

static void any_fork(void)
{
    if (fork_functions[0]) {
        fork_functions[0]();
        require(handles_lock._fc == 1 && maps_lock._fc == 1);
        fork_functions[any() ? 1 : 2]();
    }
}

/* Makes a call that changes which clients a map has. */
static void any_change(void)
{
    switch (Frama_C_interval(0, 2)) {
    case 0:
        (void)moc_map_begin(clients + 1, stores, any_number(), 2);
        break;
    case 1:
        (void)moc_map_join(any_open_client(), any_open_client());
        break;
    default:
        moc_client_close(any_open_client());
    }
    end_step();
}

/* Closes all stores and clients. Then no memory is left, and no store or client of the proved functions is open. */
static void close_all(void)
{
    moc_store_close(stores + 1);
    moc_store_close(stores);
    moc_client_close(clients + 2);
    moc_client_close(clients);
    moc_client_close(clients + 1);
    end_step();
    require(blocks == 0 && still_open == 0 && first_handle == NULL && last_handle == NULL);
}

/* Opens all stores and clients, or those before the first that fails. The number of a store in its ids begins again at 1 meanwhile. */
static bool open_all(void)
{
    handle_number = STORE_COUNT - 2;
    Frama_C_make_unknown((char *)elements, sizeof elements);
    bool is_open = moc_store_open(stores) && moc_store_open(stores + 1) && moc_client_open(clients) && moc_client_open(clients + 1)
                   && moc_client_open(clients + 2);
    end_step();
    return is_open;
}

/* Each call with any arguments, and a pause after any number of tries. */
void check_calls(void)
{
    any_pause();
    if (open_all()) {
        any_call();
        end_step();
    }
    close_all();
}

/* Clients that begin, join and leave maps in any order, and a fork after that. */
void check_clients(void)
{
    if (open_all()) {
        (void)moc_map_begin(clients, stores, any_number(), any() ? 1 : 3);
        any_change();
        any_change();
        any_fork();
    }
    close_all();
}

/* One call of each kind, in which planted defects are found. */
void check_once(void)
{
    any_pause();
    if (open_all()) {
        (void)moc_map_begin(clients, stores, 0, 2);
        (void)moc_map_join(clients, clients + 1);
        check_text(moc_map_execute(clients, (uint8_t *)elements, 4, texts));
        check_text(moc_write_ascii(stores, 0, MOC_NO_ORDER, texts));
        end_step();
    }
    close_all();
}
