/* Makes sets and texts while one allocation fails (fail_allocation.c). A call that returns MOC_MEMORY changes nothing, so the same call
   succeeds the next time. If opening a store or a handle fails, it is null. The program prints the number of failed calls. Its exit status
   is 1 if a call returns anything unexpected. library.py builds and runs the program. */
#include "ploverchaise.h"

#include <stdio.h>
#include <stdlib.h>
#include <string.h>

static unsigned failures;
static moc_store store, target;
static moc_text text;
/* The id of the first coverage of a store. The next ids follow. */
static uint64_t first_id;

/* Ends the program if a condition executes not hold. */
static void require(int line, bool holds)
{
    if (!holds) {
        printf("line %d\n", line);
        exit(1);
    }
}
#define REQUIRE(condition) require(__LINE__, condition)

/* Stores the result of a call, which is repeated if an allocation fails. */
#define REPEATED(result, call)          \
    do {                                \
        result = call;                  \
        if (result.code == MOC_MEMORY) { \
            failures++;                 \
            result = call;              \
        }                               \
        REQUIRE(result.code == MOC_OK);    \
    } while (0)
/* Makes a call, and repeats it if an allocation failed. The call returns this number. */
#define RETURNS(call, no_value, number)                            \
    do {                                                           \
        moc_result result = call;                                  \
        if (result.code == MOC_MEMORY) {                           \
            failures++;                                            \
            REQUIRE(result.first == (no_value) && result.second == 0); \
            REQUIRE(text.bytes == NULL && text.length == 0);       \
            result = call;                                         \
        }                                                          \
        REQUIRE(result.code == MOC_OK && result.first == (number));   \
    } while (0)
#define RETURNS_NUMBER(call, number) RETURNS(call, 0, number)
/* The same of a call that makes a coverage, which returns no id if an allocation fails. */
#define MAKES(call, number) RETURNS(call, UINT64_MAX, first_id + (number))
/* The same of a call that makes a text. */
#define WRITES(call, expected)                                      \
    do {                                                            \
        RETURNS(call, 0, strlen(expected));                         \
        REQUIRE(strcmp(text.bytes, expected) == 0);                    \
        moc_text_free(&text);                                       \
    } while (0)

static void open_client(moc_client *client)
{
    memset(client, 0xff, sizeof *client);
    if (!moc_client_open(client)) {
        failures++;
        moc_client_close(client);
        REQUIRE(moc_map_answer(client, &text).code == MOC_NULL);
        REQUIRE(moc_client_open(client));
    }
}

/* Executes a line, and checks its replies. */
static void executes(moc_client *client, const char *line, const char *replies)
{
    RETURNS_NUMBER(moc_map_apply(client, (const uint8_t *)line, strlen(line)), 0);
    WRITES(moc_map_answer(client, &text), replies);
}

/* Shares the map of set 5 between two handles, and reads its set into the store. */
static void share(void)
{
    moc_client first, second;
    open_client(&first);
    open_client(&second);
    RETURNS_NUMBER(moc_map_begin(&first, &store, first_id + 5, 2), 1);
    RETURNS_NUMBER(moc_map_join(&first, &second), 0);
    executes(&first, "add 0/1", "changed 216172782113783808\n");
    executes(&second, "remove 0/0-1 ; read 0/0-11", "changed 576460752303423488 ; cover\n");
    executes(&first, "invert ; invert ; keep 0/1", "changed 3458764513820540928 ; changed 3458764513820540928 ; changed 0\n");
    const uint64_t two[2] = {1, 0};
    RETURNS_NUMBER(moc_map_add(&first, 0, two, 2), 576460752303423488);
    RETURNS_NUMBER(moc_map_claim(&second, 0, two, 1), 288230376151711744);
    RETURNS_NUMBER(moc_map_count(&second, 0, two, 2), 576460752303423488);
    RETURNS_NUMBER(moc_map_remove(&second, 0, two, 2), 576460752303423488);
    RETURNS_NUMBER(moc_map_contains(&second, 0, two, 2), 0);
    RETURNS_NUMBER(moc_map_add_coverage(&first, &store, first_id + 5), 360287970189639680);
    RETURNS_NUMBER(moc_map_contains_coverage(&first, &store, first_id + 5), 1);
    RETURNS_NUMBER(moc_map_count_coverage(&first, &store, first_id + 4), 360287970189639680);
    RETURNS_NUMBER(moc_map_claim_coverage(&second, &store, first_id + 5), 360287970189639680);
    RETURNS_NUMBER(moc_map_remove_coverage(&second, &store, first_id + 4), 360287970189639680);
    WRITES(moc_map_execute(&first, (const uint8_t *)"near 0 0", 8, &text), "near no\n");
    MAKES(moc_map_coverage(&second, &store), 14);
    REQUIRE(moc_is_empty(&store, first_id + 14).first == 1);
    moc_client_close(&first);
    moc_client_close(&second);
}

/* Opens a store with the union of a set of 1,000 pixels of the target and of a set of the store, and queries both sets. */
static void use_two_stores(uint64_t shared)
{
    moc_store opened = {&opened};
    moc_result made = moc_open_union(&target, shared, &store, first_id + 3, &opened);
    if (made.code == MOC_MEMORY) {
        failures++;
        REQUIRE(made.first == UINT64_MAX && made.second == 0 && !opened.at);
        made = moc_open_union(&target, shared, &store, first_id + 3, &opened);
    }
    REQUIRE(made.code == MOC_OK && moc_count(&opened, made.first).first == 1000);
    moc_store_close(&opened);
    RETURNS_NUMBER(moc_pair_count_common(&target, shared, &store, first_id + 4), 1000);
    RETURNS_NUMBER(moc_pair_same(&store, first_id, &target, shared), 1);
}

int main(void)
{
    static moc_range ranges[1000], out[1000];
    static uint64_t cells[1000], uniqs[1000];
    memset(&store, 0xff, sizeof store);
    if (!moc_store_open(&store)) {
        failures++;
        moc_store_close(&store);
        REQUIRE(moc_empty(&store).code == MOC_NULL);
        REQUIRE(moc_store_open(&store));
    }
    for (size_t i = 0; i < 1000; i++) {
        ranges[i] = (moc_range){3 * i, 3 * i + 1};
        cells[i] = 999 - i;
        uniqs[i] = (UINT64_C(1) << 60) + 3 * (999 - i);
    }
    moc_result made;
    REPEATED(made, moc_from_ranges(&store, ranges, 1000));
    first_id = made.first;
    MAKES(moc_from_cells(&store, 28, cells, 1000), 1);
    MAKES(moc_from_uniqs(&store, uniqs, 1000), 2);
    MAKES(moc_empty(&store), 3);
    MAKES(moc_full(&store), 4);
    MAKES(moc_read_ascii(&store, (const uint8_t *)"0/0 1/4", 7), 5);
    MAKES(moc_read_json(&store, (const uint8_t *)"{\"0\":[0],\"1\":[4]}", 17), 6);
    MAKES(moc_read_uniq(&store, (const uint8_t *)"4\n20\n", 5), 7);
    MAKES(moc_union(&store, first_id, first_id + 1), 8);
    MAKES(moc_intersection(&store, first_id, first_id + 1), 9);
    MAKES(moc_difference(&store, first_id + 1, first_id), 10);
    MAKES(moc_symmetric(&store, first_id, first_id + 1), 11);
    MAKES(moc_complement(&store, first_id), 12);
    MAKES(moc_degrade(&store, first_id, 29), 13);
    RETURNS_NUMBER(moc_cells(&store, first_id, uniqs, 1000), 1000);
    WRITES(moc_write_ascii(&store, first_id + 5, MOC_NO_ORDER, &text), "0/0 1/4\n");
    WRITES(moc_write_json(&store, first_id + 6, MOC_NO_ORDER, &text), "{\"0\":[0],\"1\":[4]}\n");
    WRITES(moc_write_uniq(&store, first_id + 7, &text), "4\n20\n");
    WRITES(moc_describe(&store, first_id + 3, MOC_NO_ORDER, &text),
           "deepest none\npixels 0\nshare 0.000000000000\narea 0.000000000000\nranges 0\ncells 0\n");
    REPEATED(made, moc_draw(&store, first_id + 3, &text));
    REQUIRE(made.first == text.length && text.length > 0);
    moc_text_free(&text);
    if (!moc_store_open(&target)) {
        failures++;
        REQUIRE(moc_store_open(&target));
    }
    REPEATED(made, moc_share(&store, first_id, &target));
    REQUIRE(moc_count(&target, made.first).first == 1000);
    use_two_stores(made.first);
    moc_store_close(&target);

    const struct {
        uint64_t a, b;
    } equal[] = {{0, 2}, {0, 13}, {0, 9}, {8, 1}, {10, 11}, {5, 6}, {6, 7}};
    for (size_t i = 0; i < sizeof equal / sizeof equal[0]; i++)
        REQUIRE(moc_same(&store, first_id + equal[i].a, first_id + equal[i].b).first == 1);
    REQUIRE(moc_count(&store, first_id + 1).first == 4000 && moc_covers(&store, first_id + 1, first_id).first == 1);
    REQUIRE(moc_count(&store, first_id + 10).first == 3000 && moc_meets(&store, first_id, first_id + 12).first == 0);
    uint64_t rest = moc_count(&store, first_id + 12).first;
    REQUIRE(moc_count(&store, first_id + 4).first == moc_count(&store, first_id).first + rest);
    REQUIRE(moc_ranges(&store, first_id, out, 1000).first == 1000 && memcmp(out, ranges, sizeof out) == 0);
    share();
    moc_store_close(&store);
    printf("%u\n", failures);
    return 0;
}
