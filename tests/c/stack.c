/* Measures how many bytes of stack calls need, on a thread whose stack is painted before. The limits are those of docs/C.md. The last line
   printed is `N passed, M failed`. library.py builds and runs the program without sanitizers, which use more stack. */
#define _GNU_SOURCE
#include "checks.h"

#include <pthread.h>
#include <stdlib.h>
#include <string.h>
#include <sys/mman.h>

enum { STACK = 1 << 20, PAINT = 0xa5, LIMIT = 32 << 10, JSON_LIMIT = 128 << 10, CELLS = 20000, DEPTH = 100000 };

static moc_store store, shared, opened;
static moc_client client, other;
static moc_text text;
static uint64_t a, b, of_shared, cells[CELLS], uniqs[CELLS], out[64][8], many[30 * CELLS];
static moc_range ranges[CELLS], many_ranges[CELLS];
static uint8_t are_members[CELLS];
static char ascii[16 * CELLS], json[16 * CELLS], deep[8 * DEPTH + 2];

static uint32_t ascii_call(void) { return moc_read_ascii(&store, (const uint8_t *)ascii, strlen(ascii)).code; }
static uint32_t json_call(void) { return moc_read_json(&store, (const uint8_t *)json, strlen(json)).code; }
static uint32_t uniq_call(void) { return moc_read_uniq(&store, (const uint8_t *)"4\n17\n", 5).code; }
static uint32_t cells_call(void) { return moc_from_cells(&store, 12, cells, CELLS).code; }
static uint32_t from_uniqs_call(void) { return moc_from_uniqs(&store, uniqs, CELLS).code; }
static uint32_t ranges_call(void) { return moc_from_ranges(&store, ranges, CELLS).code; }
static uint32_t union_call(void) { return moc_union(&store, a, b).code; }
static uint32_t intersection_call(void) { return moc_intersection(&store, a, b).code; }
static uint32_t difference_call(void) { return moc_difference(&store, a, b).code; }
static uint32_t symmetric_call(void) { return moc_symmetric(&store, a, b).code; }
static uint32_t complement_call(void) { return moc_complement(&store, a).code; }
static uint32_t degrade_call(void) { return moc_degrade(&store, a, 7).code; }
static uint32_t share_call(void) { return moc_share(&store, a, &shared).code; }
static uint32_t open_union_call(void) { return moc_open_union(&store, a, &shared, of_shared, &opened).code; }
static uint32_t open_intersection_call(void) { return moc_open_intersection(&store, a, &shared, of_shared, &opened).code; }
static uint32_t open_difference_call(void) { return moc_open_difference(&store, a, &shared, of_shared, &opened).code; }
static uint32_t open_symmetric_call(void) { return moc_open_symmetric(&store, a, &shared, of_shared, &opened).code; }
static uint32_t pair_count_call(void) { return moc_pair_count_common(&store, a, &shared, of_shared).code; }
static uint32_t pair_meets_call(void) { return moc_pair_meets(&store, a, &shared, of_shared).code; }
static uint32_t pair_covers_call(void) { return moc_pair_covers(&store, a, &shared, of_shared).code; }
static uint32_t pair_same_call(void) { return moc_pair_same(&store, a, &shared, of_shared).code; }
static uint32_t contains_all_call(void) { return moc_contains_all(&store, a, cells, CELLS, are_members, CELLS).code; }
static uint32_t get_ranges_call(void) { return moc_ranges(&store, b, many_ranges, CELLS).code; }
static uint32_t get_cells_call(void) { return moc_cells(&store, b, many, 30 * CELLS).code; }
static uint32_t cell_counts_call(void) { return moc_cell_count_by_order(&store, b, many, 30 * CELLS).code; }
static uint32_t write_ascii_call(void) { return moc_write_ascii(&store, a, MOC_NO_ORDER, &text).code; }
static uint32_t write_uniq_call(void) { return moc_write_uniq(&store, a, &text).code; }
static uint32_t write_call(void) { return moc_write_json(&store, a, MOC_NO_ORDER, &text).code; }
static uint32_t describe_call(void) { return moc_describe(&store, a, MOC_NO_ORDER, &text).code; }
static uint32_t draw_call(void) { return moc_draw(&store, a, &text).code; }
static uint32_t touching_call(void) { return moc_touching(12, cells, 64, out, 64).code; }
static uint32_t begin_call(void) { return moc_map_begin(&client, &store, a, 4).code; }
static uint32_t join_call(void) { return moc_map_join(&client, &other).code; }
static uint32_t add_call(void) { return moc_map_add(&client, 12, cells, CELLS).code; }
static uint32_t claim_call(void) { return moc_map_claim_coverage(&client, &store, b).code; }
static uint32_t copy_call(void) { return moc_map_coverage(&client, &store).code; }

static uint32_t line_call(void)
{
    static const char LINE[] = "keep 0/0-11;keep 0/0-11;near 3 0;invert;degrade 9;count 9/5;read 0/0-11;claim 9/5-700;add 9/5;remove 9/5";
    return moc_map_execute(&client, (const uint8_t *)LINE, strlen(LINE), &text).code;
}

/* The call that needs more stack: a text with deeply nested arrays or objects, which is not a coverage. */
static uint32_t deep_call(void)
{
    uint32_t error = moc_read_json(&store, (const uint8_t *)deep, strlen(deep)).code;
    return MOC_JSON_NOT_JSON <= error && error <= MOC_JSON_BAD_ORDER ? MOC_OK : error;
}

/* What is before and after the innermost value of a nested text, for each level. */
static const char *const NESTED[][2] = {{"[", "]"}, {"{\"a\":", "}"}, {"[{\"a\":", "}]"}};
/* The numbers of levels. With 127 levels of arrays or of objects, a text is still parsed as JSON. */
static const int DEPTHS[] = {127, DEPTH};

/* Makes a nested text. */
static void nest(const char *const around[2], int depth)
{
    size_t before = strlen(around[0]), after = strlen(around[1]);
    char *end = deep;
    for (int i = 0; i < depth; i++, end += before)
        memcpy(end, around[0], before);
    *end++ = '1';
    for (int i = 0; i < depth; i++, end += after)
        memcpy(end, around[1], after);
    *end = 0;
}

static uint32_t no_call(void)
{
    return MOC_OK;
}

static const struct {
    const char *name;
    uint32_t (*call)(void);
} ROWS[] = {{"read_ascii", ascii_call}, {"read_json", json_call}, {"read_uniq", uniq_call}, {"from_cells", cells_call},
            {"from_uniqs", from_uniqs_call}, {"from_ranges", ranges_call}, {"union", union_call}, {"intersection", intersection_call},
            {"difference", difference_call}, {"symmetric", symmetric_call}, {"complement", complement_call}, {"degrade", degrade_call},
            {"share", share_call}, {"open_union", open_union_call}, {"open_intersection", open_intersection_call},
            {"open_difference", open_difference_call}, {"open_symmetric", open_symmetric_call}, {"pair_count_common", pair_count_call},
            {"pair_meets", pair_meets_call}, {"pair_covers", pair_covers_call}, {"pair_same", pair_same_call},
            {"contains_all", contains_all_call}, {"ranges", get_ranges_call}, {"cells", get_cells_call},
            {"cell_count_by_order", cell_counts_call}, {"write_ascii", write_ascii_call}, {"write_json", write_call},
            {"write_uniq", write_uniq_call}, {"describe", describe_call}, {"draw", draw_call}, {"touching", touching_call},
            {"map_begin", begin_call}, {"map_join", join_call}, {"map_add", add_call}, {"map_claim_coverage", claim_call},
            {"map_coverage", copy_call}, {"map_execute", line_call}};

static unsigned char *stack;
static uint32_t code;

static void *call_once(void *call)
{
    code = (*(uint32_t (**)(void))call)();
    return call;
}

/* Returns the number of bytes of the stack of a thread that a call writes to, with those that a thread needs itself. */
static size_t stack_bytes(uint32_t (*call)(void))
{
    pthread_attr_t attributes;
    pthread_t thread;
    memset(stack, PAINT, STACK);
    if (pthread_attr_init(&attributes) || pthread_attr_setstack(&attributes, stack, STACK)
        || pthread_create(&thread, &attributes, call_once, &call) || pthread_join(thread, NULL))
        return STACK;
    pthread_attr_destroy(&attributes);
    size_t unused = 0;
    while (unused < STACK && stack[unused] == PAINT)
        unused++;
    moc_text_free(&text);
    moc_store_close(&opened);
    return STACK - unused;
}

int main(void)
{
    char *ascii_end = ascii + sprintf(ascii, "12/"), *json_end = json + sprintf(json, "{\"12\":[0");
    for (unsigned i = 0; i < CELLS; i++) {
        cells[i] = i * UINT64_C(7919) % 200000000;
        uniqs[i] = (UINT64_C(4) << 24) + cells[i];
        ranges[i] = (moc_range){UINT64_C(100000000) * i, UINT64_C(100000000) * i + 7};
        ascii_end += sprintf(ascii_end, "%u ", (unsigned)cells[i]);
        json_end += sprintf(json_end, ",%u", (unsigned)cells[CELLS - 1 - i]);
    }
    strcpy(json_end, "]}");
    stack = mmap(NULL, STACK, PROT_READ | PROT_WRITE, MAP_PRIVATE | MAP_ANONYMOUS, -1, 0);
    CHECK(stack != MAP_FAILED && moc_store_open(&store) && moc_store_open(&shared) && moc_client_open(&client) && moc_client_open(&other));
    moc_result of_cells = moc_from_cells(&store, 12, cells, CELLS), of_ranges = moc_from_ranges(&store, ranges, CELLS);
    a = of_cells.first;
    b = of_ranges.first;
    of_shared = moc_share(&store, b, &shared).first;
    size_t without = stack_bytes(no_call), most = 0;
    for (size_t i = 0; i < sizeof ROWS / sizeof ROWS[0]; i++) {
        size_t bytes = stack_bytes(ROWS[i].call) - without;
        most = bytes > most ? bytes : most;
        check(__LINE__, ROWS[i].name, code == MOC_OK && bytes <= LIMIT);
        if (code != MOC_OK || bytes > LIMIT)
            printf("%s: code %u, %zu bytes of stack\n", ROWS[i].name, (unsigned)code, bytes);
    }
    for (size_t i = 0; i < sizeof NESTED / sizeof NESTED[0] * 2; i++) {
        nest(NESTED[i / 2], DEPTHS[i % 2]);
        size_t bytes = stack_bytes(deep_call) - without;
        CHECK(code == MOC_OK && bytes > 1024 && bytes <= JSON_LIMIT);
        if (code != MOC_OK || bytes > JSON_LIMIT)
            printf("%s nested: code %u, %zu bytes of stack\n", NESTED[i / 2][0], (unsigned)code, bytes);
    }
    /* The measurement sees what calls write: some of them have a buffer of 1,024 bytes. */
    CHECK(most > 1024);
    moc_client_close(&client);
    moc_client_close(&other);
    moc_store_close(&shared);
    moc_store_close(&store);
    munmap(stack, STACK);
    return report();
}
