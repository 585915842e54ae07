/* Calls each function of ploverchaise.h with valid, empty, short and invalid arguments. The expected results are from the examples of
   the formats of MOC 2.0 and of the numberings of HEALPix. The last line printed is `N passed, M failed`. library.py builds and runs the
   program. */
#include "checks.h"
#include "ploverchaise.h"

#include <inttypes.h>
#include <pthread.h>
#include <sched.h>
#include <stdio.h>
#include <stdlib.h>
#include <string.h>
#include <sys/wait.h>
#include <time.h>
#include <unistd.h>

#define BASE UINT64_C(288230376151711744) /* the pixels of a base pixel: 4^29 */
#define LAST UINT64_C(3458764513820540927) /* the last pixel */

static moc_store store;
static moc_text text;
/* An id that no coverage has. */
static uint64_t unused;

#define RETURNS(call, number) CHECK(is(call, MOC_OK, number, 0))
#define FAILS(call, code, first) CHECK(is(call, code, first, 0))
/* Checks that a call that makes a coverage fails: it returns no id, and the position of the error in its place. */
#define NO_ID(call, code, position) CHECK(is(call, code, UINT64_MAX, position))

static const uint8_t *bytes(const char *text)
{
    return (const uint8_t *)text;
}

static moc_result ascii(const char *text)
{
    return moc_read_ascii(&store, bytes(text), strlen(text));
}

static moc_result json(const char *text)
{
    return moc_read_json(&store, bytes(text), strlen(text));
}

static moc_result uniq(const char *text)
{
    return moc_read_uniq(&store, bytes(text), strlen(text));
}

/* Reads an ASCII text, and returns the id of its set. */
static uint64_t set(const char *text)
{
    moc_result result = ascii(text);
    CHECK(result.code == MOC_OK);
    return result.first;
}

/* Returns whether a call wrote this text to `text`, and frees the text. */
static bool makes_text(moc_result result, const char *expected)
{
    size_t length = strlen(expected);
    bool is_equal = is(result, MOC_OK, length, 0) && text.length == length && strcmp(text.bytes, expected) == 0;
    moc_text_free(&text);
    return is_equal && !text.bytes && !text.length;
}

/* Checks that a call makes no text, and zeroes `text`. */
#define NO_TEXT(call, code, first)                                          \
    do {                                                                    \
        static char old[] = "old";                                          \
        text = (moc_text){old, 3};                                          \
        CHECK(is(call, code, first, 0) && !text.bytes && !text.length);     \
    } while (0)

/* Returns whether the set with an id is equal to the set of an ASCII text. */
static bool is_set(uint64_t id, const char *text)
{
    return is(moc_same(&store, id, set(text)), MOC_OK, 1, 0);
}

static void texts(void)
{
    uint8_t none[1];
    moc_result result = ascii("1/1-2 4 2/12-14 21 23 25 8/");
    uint64_t id = result.first;
    CHECK(result.code == MOC_OK && result.second == 8);
    CHECK(makes_text(moc_write_ascii(&store, id, 8, &text), "1/1-2 4 2/12-14 21 23 25 8/\n"));
    NO_TEXT(moc_write_ascii(&store, id, 1, &text), MOC_TOO_COARSE, 0);
    NO_TEXT(moc_write_json(&store, id, 1, &text), MOC_TOO_COARSE, 0);
    NO_TEXT(moc_write_ascii(&store, id, 30, &text), MOC_NO_SUCH_ORDER, 30);
    NO_TEXT(moc_write_json(&store, id, 254, &text), MOC_NO_SUCH_ORDER, 254);
    NO_TEXT(moc_write_ascii(&store, unused, 30, &text), MOC_NO_SUCH_SET, unused);
    NO_TEXT(moc_write_json(&store, unused, 8, &text), MOC_NO_SUCH_SET, unused);
    NO_TEXT(moc_write_uniq(&store, UINT64_MAX, &text), MOC_NO_SUCH_SET, UINT64_MAX);
    result = json("{\"10\":[],\"2\":[5],\"1\":[1]}");
    CHECK(result.code == MOC_OK && result.second == 10);
    CHECK(makes_text(moc_write_json(&store, result.first, 10, &text), "{\"1\":[1],\"10\":[]}\n"));
    result = ascii("2/0-3,1/1 1/2,3");
    CHECK(result.code == MOC_OK && result.second == 2);
    CHECK(makes_text(moc_write_ascii(&store, result.first, MOC_NO_ORDER, &text), "0/0\n"));
    CHECK(makes_text(moc_write_ascii(&store, result.first, 2, &text), "0/0 2/\n"));
    result = uniq("16\n17\n\n18\n19");
    CHECK(result.code == MOC_OK && result.second == MOC_NO_ORDER);
    CHECK(makes_text(moc_write_json(&store, result.first, MOC_NO_ORDER, &text), "{\"0\":[0]}\n"));
    CHECK(makes_text(moc_write_uniq(&store, result.first, &text), "4\n"));
    result = moc_read_ascii(&store, none, 0);
    CHECK(result.code == MOC_OK && result.second == MOC_NO_ORDER);
    CHECK(makes_text(moc_write_ascii(&store, result.first, 8, &text), "8/\n"));
    CHECK(makes_text(moc_write_json(&store, result.first, MOC_NO_ORDER, &text), "{}\n"));
    CHECK(makes_text(moc_write_uniq(&store, result.first, &text), ""));
    result = moc_read_uniq(&store, none, 0);
    RETURNS(moc_is_empty(&store, result.first), 1);

    NO_ID(ascii("5/7x"), MOC_ASCII_BAD_BYTE, 3);
    NO_ID(ascii("5-3/"), MOC_ASCII_BAD_BYTE, 3);
    NO_ID(ascii("7 5/1"), MOC_ASCII_NO_ORDER, 0);
    NO_ID(ascii("30/0"), MOC_ASCII_ORDER_TOO_LARGE, 0);
    NO_ID(ascii("s30/0"), MOC_ASCII_ORDER_TOO_LARGE, 1);
    NO_ID(ascii("s29/3458764513820540928"), MOC_ASCII_CELL_TOO_LARGE, 4);
    NO_ID(ascii("5/7-3"), MOC_ASCII_BACKWARDS, 2);
    NO_ID(ascii("5/7-"), MOC_ASCII_UNFINISHED, 4);
    NO_ID(json("{\"1\":[0"), MOC_JSON_NOT_JSON, 0);
    NO_ID(moc_read_json(&store, none, 0), MOC_JSON_NOT_JSON, 0);
    NO_ID(json("[1]"), MOC_JSON_NOT_OBJECT, 0);
    NO_ID(json("{\"1\":[],\"30\":[]}"), MOC_JSON_BAD_ORDER, 1);
    NO_ID(json("{\"1\":[],\"2\":0}"), MOC_JSON_NOT_ARRAY, 1);
    NO_ID(json("{\"2\":[-1]}"), MOC_JSON_NOT_WHOLE, 0);
    NO_ID(json("{\"1\":[0,48]}"), MOC_JSON_CELL_TOO_LARGE, UINT64_C(1) << 32);
    NO_ID(uniq("4\nx\n"), MOC_UNIQ_BAD_BYTE, 2);
    NO_ID(uniq("4\n4611686018427387904\n"), MOC_UNIQ_NOT_UNIQ, 2);

    CHECK(makes_text(moc_describe(&store, set("0/0 2/20"), 2, &text),
               "deepest 2\npixels 306244774661193728\nshare 0.088541666666\narea 3652.605943958997\nranges 2\ncells 2\n"
               "order 0 1\norder 2 1\n"));
    NO_TEXT(moc_describe(&store, unused, 2, &text), MOC_NO_SUCH_SET, unused);
    NO_TEXT(moc_describe(&store, id, 30, &text), MOC_NO_SUCH_ORDER, 30);
    result = moc_draw(&store, set("0/4"), &text);
    CHECK(result.code == MOC_OK && result.first == text.length && strlen(text.bytes) == text.length);
    CHECK(memcmp(text.bytes, "<svg ", 5) == 0 && strcmp(text.bytes + text.length - 7, "</svg>\n") == 0);
    moc_text_free(&text);
    moc_text_free(&text);
    moc_text_free(NULL);
    NO_TEXT(moc_draw(&store, unused, &text), MOC_NO_SUCH_SET, unused);
}

static void operations(void)
{
    uint64_t a = set("0/0 1/4-5"), b = json("{\"1\":[3,4,6,7],\"2\":[20,32]}").first;
    moc_result result = moc_intersection(&store, a, b);
    CHECK(result.code == MOC_OK && is_set(result.first, "1/3-4 2/20"));
    result = moc_union(&store, set("0/0"), set("0/1-2"));
    CHECK(result.code == MOC_OK && is_set(result.first, "0/0-2"));
    result = moc_union(&store, a, a);
    CHECK(result.code == MOC_OK && is_set(result.first, "0/0 1/4-5"));
    result = moc_difference(&store, set("0/0-1"), set("0/1-2"));
    CHECK(result.code == MOC_OK && is_set(result.first, "0/0"));
    result = moc_complement(&store, set("0/0"));
    CHECK(result.code == MOC_OK && is_set(result.first, "0/1-11"));
    result = moc_degrade(&store, set("29/3"), 28);
    CHECK(result.code == MOC_OK && is_set(result.first, "28/0"));

    moc_range low[] = {{0, 8}}, high[] = {{4, 12}}, out[4] = {{0, 0}, {0, 0}, {75, 76}, {77, 78}};
    result = moc_symmetric(&store, moc_from_ranges(&store, low, 1).first, moc_from_ranges(&store, high, 1).first);
    RETURNS(moc_range_count(&store, result.first), 2);
    RETURNS(moc_ranges(&store, result.first, out, 4), 2);
    CHECK(out[0].from == 0 && out[0].to == 4 && out[1].from == 8 && out[1].to == 12);
    CHECK(out[2].from == 75 && out[2].to == 76 && out[3].from == 77 && out[3].to == 78);

    NO_ID(moc_union(&store, a, unused), MOC_NO_SUCH_SET, unused);
    NO_ID(moc_union(&store, unused, unused + 1), MOC_NO_SUCH_SET, unused);
    NO_ID(moc_intersection(&store, a, unused), MOC_NO_SUCH_SET, unused);
    NO_ID(moc_difference(&store, unused, a), MOC_NO_SUCH_SET, unused);
    NO_ID(moc_symmetric(&store, a, unused), MOC_NO_SUCH_SET, unused);
    NO_ID(moc_complement(&store, unused), MOC_NO_SUCH_SET, unused);
    NO_ID(moc_degrade(&store, a, 30), MOC_NO_SUCH_ORDER, 30);
    NO_ID(moc_degrade(&store, unused, 30), MOC_NO_SUCH_SET, unused);
}

static void queries(void)
{
    uint64_t a = set("0/0 1/4-5"), empty = moc_empty(&store).first, full = moc_full(&store).first;
    RETURNS(moc_count(&store, a), BASE / 2 * 3);
    RETURNS(moc_count(&store, full), 12 * BASE);
    RETURNS(moc_count_common(&store, a, set("0/1")), BASE / 2);
    RETURNS(moc_range_count(&store, a), 1);
    RETURNS(moc_deepest_order(&store, a), 1);
    RETURNS(moc_deepest_order(&store, empty), 0);
    RETURNS(moc_is_empty(&store, empty), 1);
    RETURNS(moc_is_empty(&store, a), 0);
    RETURNS(moc_contains(&store, full, LAST), 1);
    RETURNS(moc_contains(&store, full, LAST + 1), 0);
    RETURNS(moc_contains(&store, empty, 0), 0);
    RETURNS(moc_meets(&store, a, full), 1);
    RETURNS(moc_meets(&store, a, set("0/2")), 0);
    RETURNS(moc_covers(&store, full, a), 1);
    RETURNS(moc_covers(&store, a, full), 0);
    RETURNS(moc_same(&store, a, full), 0);
    RETURNS(moc_same(&store, a, a), 1);
    FAILS(moc_count(&store, unused), MOC_NO_SUCH_SET, unused);
    FAILS(moc_count_common(&store, a, unused), MOC_NO_SUCH_SET, unused);
    FAILS(moc_range_count(&store, unused), MOC_NO_SUCH_SET, unused);
    FAILS(moc_deepest_order(&store, unused), MOC_NO_SUCH_SET, unused);
    FAILS(moc_is_empty(&store, unused), MOC_NO_SUCH_SET, unused);
    FAILS(moc_contains(&store, unused, 0), MOC_NO_SUCH_SET, unused);
    FAILS(moc_meets(&store, unused, a), MOC_NO_SUCH_SET, unused);
    FAILS(moc_covers(&store, a, unused), MOC_NO_SUCH_SET, unused);
    FAILS(moc_same(&store, unused, a), MOC_NO_SUCH_SET, unused);
}

static void arrays(void)
{
    moc_range ranges[] = {{4, 8}, {8, 9}, {0, 4}, {7, 7}}, out[1];
    uint64_t id = moc_from_ranges(&store, ranges, 4).first;
    RETURNS(moc_ranges(&store, id, out, 1), 1);
    CHECK(out[0].from == 0 && out[0].to == 9);
    FAILS(moc_ranges(&store, id, out, 0), MOC_BUFFER_TOO_SHORT, 1);
    FAILS(moc_ranges(&store, unused, out, 1), MOC_NO_SUCH_SET, unused);
    CHECK(makes_text(moc_write_ascii(&store, id, MOC_NO_ORDER, &text), "28/0-1 29/8\n"));
    RETURNS(moc_is_empty(&store, moc_from_ranges(&store, ranges + 3, 1).first), 1);
    RETURNS(moc_is_empty(&store, moc_from_ranges(&store, ranges, 0).first), 1);
    moc_range backwards[] = {{5, 4}}, large[] = {{0, 1}, {0, LAST + 2}};
    NO_ID(moc_from_ranges(&store, backwards, 1), MOC_RANGE_BACKWARDS, 0);
    NO_ID(moc_from_ranges(&store, large, 2), MOC_RANGE_PIXEL_TOO_LARGE, 1);

    moc_range three_to_nine[] = {{3, 9}};
    uint64_t numbers[4] = {0, 0, 0, 77};
    id = moc_from_ranges(&store, three_to_nine, 1).first;
    RETURNS(moc_cells(&store, id, numbers, 4), 3);
    CHECK(numbers[0] == (UINT64_C(1) << 58) + 1 && numbers[1] == (UINT64_C(1) << 60) + 3 && numbers[2] == (UINT64_C(1) << 60) + 8
          && numbers[3] == 77);
    FAILS(moc_cells(&store, id, numbers, 2), MOC_BUFFER_TOO_SHORT, 3);
    FAILS(moc_cells(&store, unused, numbers, 4), MOC_NO_SUCH_SET, unused);
    uint64_t counts[31];
    memset(counts, 77, sizeof counts);
    FAILS(moc_cell_count_by_order(&store, id, counts, 29), MOC_BUFFER_TOO_SHORT, 30);
    FAILS(moc_cell_count_by_order(&store, unused, counts, 31), MOC_NO_SUCH_SET, unused);
    uint64_t after = counts[30];
    CHECK(counts[0] == after && counts[29] == after);
    RETURNS(moc_cell_count_by_order(&store, id, counts, 31), 30);
    CHECK(counts[0] == 0 && counts[27] == 0 && counts[28] == 1 && counts[29] == 2 && counts[30] == after);
    RETURNS(moc_same(&store, id, moc_from_uniqs(&store, numbers, 3).first), 1);
    uint64_t uniqs[] = {15, 3};
    NO_ID(moc_from_uniqs(&store, uniqs, 2), MOC_NOT_UNIQ, 1);
    RETURNS(moc_is_empty(&store, moc_from_uniqs(&store, uniqs, 0).first), 1);

    uint64_t cells[] = {5, 4, 47, 48};
    CHECK(is_set(moc_from_cells(&store, 1, cells, 3).first, "1/4-5 47"));
    NO_ID(moc_from_cells(&store, 1, cells, 4), MOC_NO_SUCH_CELL, 3);
    NO_ID(moc_from_cells(&store, 30, cells, 3), MOC_NO_SUCH_ORDER, 30);
    RETURNS(moc_is_empty(&store, moc_from_cells(&store, 1, cells, 0).first), 1);

    uint64_t pixels[] = {2, 3, 8, 9, UINT64_MAX};
    uint8_t flags[5] = {7, 7, 7, 7, 7};
    FAILS(moc_contains_all(&store, id, pixels, 5, flags, 4), MOC_LENGTHS_DIFFER, 0);
    FAILS(moc_contains_all(&store, unused, pixels, 5, flags, 4), MOC_NO_SUCH_SET, unused);
    CHECK(memcmp(flags, "\7\7\7\7\7", 5) == 0);
    RETURNS(moc_contains_all(&store, id, pixels, 0, flags, 0), 0);
    CHECK(flags[0] == 7);
    RETURNS(moc_contains_all(&store, id, pixels, 5, flags, 5), 0);
    CHECK(memcmp(flags, "\0\1\1\0\0", 5) == 0);
}

static void numbers(void)
{
    uint64_t cells[] = {0, 1, 2, 3, 16, 18}, out[6] = {0}, back[6] = {0};
    const uint64_t rings[] = {13, 5, 4, 0, 28, 27};
    RETURNS(moc_nest_to_ring(1, cells, 6, out, 6), 0);
    CHECK(memcmp(out, rings, sizeof rings) == 0);
    RETURNS(moc_ring_to_nest(1, rings, 6, back, 6), 0);
    CHECK(memcmp(back, cells, sizeof cells) == 0);
    uint64_t deep[] = {0, BASE - 1};
    RETURNS(moc_nest_to_ring(29, deep, 2, out, 2), 0);
    CHECK(out[0] == UINT64_C(1729382253957480448) && out[1] == 0);
    RETURNS(moc_nest_to_ring(1, cells, 0, out, 0), 0);
    FAILS(moc_nest_to_ring(30, cells, 6, out, 5), MOC_NO_SUCH_ORDER, 30);
    FAILS(moc_nest_to_ring(1, cells, 6, out, 5), MOC_LENGTHS_DIFFER, 0);
    FAILS(moc_nest_to_ring(0, cells, 6, out, 6), MOC_NO_SUCH_CELL, 4);
    FAILS(moc_ring_to_nest(255, rings, 6, out, 6), MOC_NO_SUCH_ORDER, 255);
    FAILS(moc_ring_to_nest(1, rings, 5, out, 6), MOC_LENGTHS_DIFFER, 0);
    FAILS(moc_ring_to_nest(0, rings, 6, out, 6), MOC_NO_SUCH_CELL, 0);

    uint64_t eleven[] = {11}, ten[] = {10}, last[] = {LAST};
    uint64_t uniqs[3];
    RETURNS(moc_nest_to_uniq(0, eleven, 1, uniqs, 1), 0);
    RETURNS(moc_nest_to_uniq(3, ten, 1, uniqs + 1, 1), 0);
    RETURNS(moc_nest_to_uniq(29, last, 1, uniqs + 2, 1), 0);
    CHECK(uniqs[0] == 15 && uniqs[1] == 266 && uniqs[2] == UINT64_C(4611686018427387903));
    FAILS(moc_nest_to_uniq(30, ten, 1, out, 1), MOC_NO_SUCH_ORDER, 30);
    FAILS(moc_nest_to_uniq(3, ten, 1, out, 0), MOC_LENGTHS_DIFFER, 0);
    FAILS(moc_nest_to_uniq(0, cells, 6, out, 6), MOC_NO_SUCH_CELL, 4);
    uint8_t orders[3] = {0};
    RETURNS(moc_uniq_to_nest(uniqs, 3, orders, 3, back, 3), 0);
    CHECK(orders[0] == 0 && orders[1] == 3 && orders[2] == 29 && back[0] == 11 && back[1] == 10 && back[2] == LAST);
    uint64_t wrong[] = {4, UINT64_C(4611686018427387904)};
    FAILS(moc_uniq_to_nest(wrong, 2, orders, 2, back, 2), MOC_NOT_UNIQ, 1);
    FAILS(moc_uniq_to_nest(wrong, 2, orders, 1, back, 2), MOC_LENGTHS_DIFFER, 0);
    FAILS(moc_uniq_to_nest(wrong, 2, orders, 2, back, 1), MOC_LENGTHS_DIFFER, 0);
    RETURNS(moc_uniq_to_nest(wrong, 0, orders, 0, back, 0), 0);

    uint64_t fourteen[] = {14}, eighteen[] = {18};
    uint8_t faces[1];
    uint32_t xs[1], ys[1];
    RETURNS(moc_nest_to_face_xy(2, fourteen, 1, faces, 1, xs, 1, ys, 1), 0);
    CHECK(faces[0] == 0 && xs[0] == 2 && ys[0] == 3);
    RETURNS(moc_nest_to_face_xy(1, eighteen, 1, faces, 1, xs, 1, ys, 1), 0);
    CHECK(faces[0] == 4 && xs[0] == 0 && ys[0] == 1);
    FAILS(moc_nest_to_face_xy(30, fourteen, 1, faces, 1, xs, 1, ys, 1), MOC_NO_SUCH_ORDER, 30);
    FAILS(moc_nest_to_face_xy(2, fourteen, 1, faces, 0, xs, 1, ys, 1), MOC_LENGTHS_DIFFER, 0);
    FAILS(moc_nest_to_face_xy(2, fourteen, 1, faces, 1, xs, 0, ys, 1), MOC_LENGTHS_DIFFER, 0);
    FAILS(moc_nest_to_face_xy(2, fourteen, 1, faces, 1, xs, 1, ys, 0), MOC_LENGTHS_DIFFER, 0);
    FAILS(moc_nest_to_face_xy(0, fourteen, 1, faces, 1, xs, 1, ys, 1), MOC_NO_SUCH_CELL, 0);

    uint64_t touching[2][8];
    const uint64_t corner[] = {1, 2, 3, 4, 5, 8, UINT64_MAX, UINT64_MAX}, belt[] = {0, 3, 5, 7, 8, 11, UINT64_MAX, UINT64_MAX};
    uint64_t two[] = {0, 4};
    RETURNS(moc_touching(0, two, 2, touching, 2), 0);
    CHECK(memcmp(touching[0], corner, sizeof corner) == 0 && memcmp(touching[1], belt, sizeof belt) == 0);
    const uint64_t eight[] = {1, 2, 3, 17, 19, 22, 23, 35}, seven[] = {0, 2, 3, 6, 7, 22, 23, UINT64_MAX};
    RETURNS(moc_touching(1, cells, 2, touching, 2), 0);
    CHECK(memcmp(touching[0], eight, sizeof eight) == 0 && memcmp(touching[1], seven, sizeof seven) == 0);
    FAILS(moc_touching(30, cells, 2, touching, 2), MOC_NO_SUCH_ORDER, 30);
    FAILS(moc_touching(1, cells, 2, touching, 1), MOC_LENGTHS_DIFFER, 0);
    FAILS(moc_touching(0, eighteen, 1, touching, 1), MOC_NO_SUCH_CELL, 0);

    /* The expected values are those of healpy 1.16. */
    const uint64_t four[] = {11, 7, 3, UINT64_MAX, 0, 5, 8, UINT64_MAX}, zero[] = {4, UINT64_MAX, 3, 2, 1, UINT64_MAX, 5, 8};
    RETURNS(moc_neighbours(0, two, 2, touching, 2), 0);
    CHECK(memcmp(touching[0], zero, sizeof zero) == 0 && memcmp(touching[1], four, sizeof four) == 0);
    const uint64_t inside[] = {2, 8, 9, 12, 6, 4, 1, 0}, three[] = {3};
    RETURNS(moc_neighbours(2, three, 1, touching, 1), 0);
    CHECK(memcmp(touching[0], inside, sizeof inside) == 0);
    FAILS(moc_neighbours(30, cells, 2, touching, 2), MOC_NO_SUCH_ORDER, 30);
    FAILS(moc_neighbours(1, cells, 2, touching, 1), MOC_LENGTHS_DIFFER, 0);
    FAILS(moc_neighbours(0, eighteen, 1, touching, 1), MOC_NO_SUCH_CELL, 0);
}

static void freed_ids(void)
{
    uint64_t id = moc_full(&store).first, other = set("0/3");
    RETURNS(moc_free(&store, id), 0);
    FAILS(moc_free(&store, id), MOC_NO_SUCH_SET, id);
    FAILS(moc_count(&store, id), MOC_NO_SUCH_SET, id);
    RETURNS(moc_count(&store, other), BASE);
    /* An id is never reused. */
    RETURNS(moc_empty(&store), other + 1);
    FAILS(moc_free(&store, UINT64_MAX), MOC_NO_SUCH_SET, UINT64_MAX);
}

static void *work(void *given)
{
    moc_store *other = given;
    moc_result full = moc_full(other);
    return full.code == MOC_OK && moc_complement(other, full.first).code == MOC_OK ? other : NULL;
}

/* Passes a store to a thread, and uses it again after the thread ended. */
static void threads(void)
{
    moc_store other;
    pthread_t thread;
    void *answer = NULL;
    CHECK(moc_store_open(&other));
    CHECK(pthread_create(&thread, NULL, work, &other) == 0 && pthread_join(thread, &answer) == 0 && answer == &other);
    moc_result last = moc_empty(&other);
    RETURNS(moc_count(&other, last.first - 2), 12 * BASE);
    RETURNS(moc_is_empty(&other, last.first - 1), 1);
    moc_store_close(&other);
}

static moc_result line(moc_client *client, const char *text)
{
    return moc_map_apply(client, bytes(text), strlen(text));
}

/* Returns whether these are the replies to the last line. */
static bool has_replies(moc_client *client, const char *expected)
{
    moc_text replies;
    size_t length = strlen(expected);
    bool is_equal = is(moc_map_answer(client, &replies), MOC_OK, length, 0) && replies.length == length
                    && strcmp(replies.bytes, expected) == 0;
    moc_text_free(&replies);
    return is_equal;
}

static bool replies_with(moc_client *client, const char *commands, const char *expected)
{
    return is(line(client, commands), MOC_OK, 0, 0) && has_replies(client, expected);
}

static void lines(moc_client *client)
{
    CHECK(replies_with(client, "read 0/0-11", "cover 0/0\n"));
    CHECK(replies_with(client, "add 0/0-1", "changed 288230376151711744\n"));
    CHECK(replies_with(client, "remove 0/0 ; count 0/0-11", "changed 288230376151711744 ; total 288230376151711744\n"));
    CHECK(replies_with(client, "claim 1/0 ; claim 1/0-1", "claimed ; taken 72057594037927936\n"));
    CHECK(replies_with(client, "near 0 0 ; near 0 10", "near yes ; near no\n"));
    CHECK(replies_with(client, "add @0 1/47;keep 0/0-5;degrade 0",
                  "changed 288230376151711744 ; changed 288230376151711744 ; changed 216172782113783808\n"));
    CHECK(replies_with(client, "invert", "changed 3458764513820540928\n"));
    /* A line with an error changes neither the map nor the replies to the last line. */
    CHECK(is(line(client, "grow 0/0"), MOC_LINE_UNKNOWN_WORD, 0, 0));
    CHECK(is(line(client, ""), MOC_LINE_EMPTY_COMMAND, 0, 0));
    CHECK(is(line(client, "invert ; ; invert"), MOC_LINE_EMPTY_COMMAND, 1, 9));
    CHECK(is(line(client, ";;;;;;;;;;;;;;;;"), MOC_LINE_TOO_MANY_COMMANDS, 16, 16));
    CHECK(is(line(client, "invert 3"), MOC_LINE_WRONG_COUNT, 0, 0));
    CHECK(is(line(client, "degrade x"), MOC_LINE_BAD_NUMBER, 0, 0));
    CHECK(is(line(client, "degrade 30"), MOC_LINE_ORDER_TOO_LARGE, 0, 0));
    CHECK(is(line(client, "near 0 12"), MOC_LINE_CELL_TOO_LARGE, 0, 0));
    CHECK(is(line(client, "add 0/x"), MOC_LINE_BAD_BYTE, 0, 6));
    CHECK(is(line(client, "add 7"), MOC_LINE_NO_ORDER, 0, 4));
    CHECK(is(line(client, "invert ; add 5/7-3"), MOC_LINE_BACKWARDS, 1, 15));
    CHECK(is(line(client, "add 5/7-"), MOC_LINE_UNFINISHED, 0, 8));
    CHECK(has_replies(client, "changed 3458764513820540928\n"));
    CHECK(replies_with(client, "read 0/0-11", "cover 0/2-11\n"));
}

/* Each command may end with a line feed, and with CR and a line feed, as a line of a script does. The expected replies are those of
   `moc run` (docs/SCRIPTS.md). */
static void line_ends(moc_client *client)
{
    /* After each turn the map has the base pixels 2 to 11, as before. */
    static const struct {
        const char *command, *replies;
    } ROWS[] = {{"add 0/1", "changed 288230376151711744\n"}, {"remove 0/1", "changed 288230376151711744\n"},
                {"claim 0/0", "claimed\n"}, {"keep 0/2-11", "changed 288230376151711744\n"},
                {"count 0/0-2", "total 288230376151711744\n"}, {"read 0/0-2", "cover 0/2\n"}, {"degrade 0", "changed 0\n"},
                {"near 0 0", "near yes\n"}, {"invert", "changed 3458764513820540928\n"}, {"invert", "changed 3458764513820540928\n"},
                {"add 0/2 ; invert ; invert", "changed 0 ; changed 3458764513820540928 ; changed 3458764513820540928\n"}};
    static const char *const ENDS[] = {"", "\n", "\r\n", " \n"};
    char text_of_line[64];
    for (size_t end = 0; end < sizeof ENDS / sizeof ENDS[0]; end++)
        for (size_t i = 0; i < sizeof ROWS / sizeof ROWS[0]; i++) {
            snprintf(text_of_line, sizeof text_of_line, "%s%s", ROWS[i].command, ENDS[end]);
            CHECK(replies_with(client, text_of_line, ROWS[i].replies));
        }
    CHECK(makes_text(moc_map_execute(client, bytes("near 0 0\n"), 9, &text), "near yes\n"));
    /* One line feed ends a line. Another one, or one between commands, is an error where the language has no line feed. */
    CHECK(line(client, "\n").code == MOC_LINE_EMPTY_COMMAND);
    CHECK(line(client, "invert\n\n").code == MOC_LINE_UNKNOWN_WORD);
    CHECK(line(client, "degrade 3\n\n").code == MOC_LINE_BAD_NUMBER);
    CHECK(has_replies(client, "near yes\n"));
}

/* Commands on cells do not change the answer to the last line. */
static void cell_commands(moc_client *client)
{
    const uint64_t two[2] = {5, 4};
    const uint64_t outside[3] = {0, 47, 48};
    CHECK(replies_with(client, "remove 0/0-11 ; count 0/0-11", "changed 2882303761517117440 ; total 0\n"));
    RETURNS(moc_map_add(client, 1, two, 2), BASE / 2);
    RETURNS(moc_map_add(client, 1, two, 2), 0);
    RETURNS(moc_map_add(client, 1, two, 0), 0);
    RETURNS(moc_map_count(client, 1, two, 1), BASE / 4);
    RETURNS(moc_map_count(client, 0, two, 2), 0);
    RETURNS(moc_map_claim(client, 1, two, 1), BASE / 4);
    RETURNS(moc_map_claim(client, 0, two, 2), 0);
    RETURNS(moc_map_claim(client, 1, two, 0), 0);
    RETURNS(moc_map_contains(client, 1, two, 2), 1);
    RETURNS(moc_map_contains(client, 1, outside, 2), 0);
    RETURNS(moc_map_contains(client, 1, outside, 0), 1);
    RETURNS(moc_map_remove(client, 1, two + 1, 1), BASE / 4);
    RETURNS(moc_map_count(client, 1, outside, 2), 0);
    FAILS(moc_map_add(client, 1, outside, 3), MOC_NO_SUCH_CELL, 2);
    FAILS(moc_map_remove(client, 30, outside, 3), MOC_NO_SUCH_ORDER, 30);
    FAILS(moc_map_add(client, 257, two, 2), MOC_NO_SUCH_ORDER, 254);
    FAILS(moc_map_remove(client, 257, two, 2), MOC_NO_SUCH_ORDER, 254);
    FAILS(moc_map_claim(client, 257, two, 2), MOC_NO_SUCH_ORDER, 254);
    FAILS(moc_map_count(client, UINT32_MAX, two, 2), MOC_NO_SUCH_ORDER, 254);
    FAILS(moc_map_contains(client, 257, two, 2), MOC_NO_SUCH_ORDER, 254);
    CHECK(has_replies(client, "changed 2882303761517117440 ; total 0\n"));
    CHECK(replies_with(client, "read 0/0-11", "cover 0/4-5 1/5\n"));
    CHECK(replies_with(client, "remove 0/0-11 ; add 0/2-11", "changed 648518346341351424 ; changed 2882303761517117440\n"));
}

/* Executes lines with one call each, and checks versions and messages. */
static void executed_lines(moc_client *client)
{
    char version[32];
    CHECK(makes_text(moc_map_execute(client, bytes("count 0/0"), 9, &text), "total 0\n"));
    NO_TEXT(moc_map_execute(client, bytes("invert 3"), 8, &text), MOC_LINE_WRONG_COUNT, 0);
    CHECK(has_replies(client, "total 0\n"));
    /* A reply that is longer than the buffer in which the library first tries to make it. */
    CHECK(replies_with(client, "add 20/0 2 4 6 8 10 12 14 16 18 20 22 24 26 28 30 32 34 36 38 40 42 44 46 48 50", "changed 6815744\n"));
    char line_of_reads[] = "read 20/0-63;read 20/0-63;read 20/0-63;read 20/0-63;read 20/0-63;read 20/0-63;read 20/0-63;read 20/0-63;"
                           "read 20/0-63;read 20/0-63;read 20/0-63;read 20/0-63;read 20/0-63;read 20/0-63;read 20/0-63;read 20/0-63";
    moc_result long_reply = moc_map_execute(client, bytes(line_of_reads), sizeof line_of_reads - 1, &text);
    CHECK(long_reply.code == MOC_OK && long_reply.first > 1024 && text.length == long_reply.first && strlen(text.bytes) == text.length);
    CHECK(memcmp(text.bytes, "cover 20/0 2 4 6 8 10 ", 22) == 0 && strcmp(text.bytes + text.length - 9, "46 48 50\n") == 0);
    moc_text_free(&text);
    CHECK(replies_with(client, "remove 0/0", "changed 6815744\n"));
    snprintf(version, sizeof version, "%d.%d.%d", MOC_VERSION_MAJOR, MOC_VERSION_MINOR, MOC_VERSION_PATCH);
    CHECK(strcmp(moc_version(), version) == 0);
    CHECK(strcmp(moc_message(MOC_OK), "success") == 0 && strcmp(moc_message(MOC_NULL), "a pointer is null") == 0);
    CHECK(strcmp(moc_message(9999), "unknown code") == 0);
}

/* Commands on a coverage of a store. */
static void coverage_commands(moc_client *client)
{
    uint64_t a = set("0/0 1/4-5"), other = set("1/4 0/2");
    CHECK(replies_with(client, "remove 0/0-11 ; count 0/0-11", "changed 2882303761517117440 ; total 0\n"));
    RETURNS(moc_map_add_coverage(client, &store, a), BASE / 2 * 3);
    RETURNS(moc_map_add_coverage(client, &store, a), 0);
    RETURNS(moc_map_count_coverage(client, &store, other), BASE / 4);
    RETURNS(moc_map_contains_coverage(client, &store, a), 1);
    RETURNS(moc_map_contains_coverage(client, &store, other), 0);
    RETURNS(moc_map_claim_coverage(client, &store, other), BASE / 4);
    RETURNS(moc_map_remove_coverage(client, &store, other), BASE / 4);
    RETURNS(moc_map_claim_coverage(client, &store, other), 0);
    RETURNS(moc_map_contains_coverage(client, &store, other), 1);
    FAILS(moc_map_add_coverage(client, &store, unused), MOC_NO_SUCH_SET, unused);
    FAILS(moc_map_remove_coverage(client, &store, unused), MOC_NO_SUCH_SET, unused);
    FAILS(moc_map_claim_coverage(client, &store, unused), MOC_NO_SUCH_SET, unused);
    FAILS(moc_map_count_coverage(client, &store, unused), MOC_NO_SUCH_SET, unused);
    FAILS(moc_map_contains_coverage(client, &store, 0), MOC_NO_SUCH_SET, 0);
    CHECK(replies_with(client, "read 0/0-11", "cover 0/0 2 1/4-5\n"));
    CHECK(replies_with(client, "remove 0/0-11 ; add 0/2-11", "changed 720575940379279360 ; changed 2882303761517117440\n"));
}

static void clients(void)
{
    moc_client first, second, third, fourth;
    uint64_t start = set("0/0");
    CHECK(moc_client_open(&first) && moc_client_open(&second) && moc_client_open(&third) && moc_client_open(&fourth));
    CHECK(has_replies(&first, ""));
    FAILS(line(&first, "invert"), MOC_NO_MAP, 0);
    NO_ID(moc_map_coverage(&first, &store), MOC_NO_MAP, 0);
    FAILS(moc_map_count(&first, 30, NULL, 0), MOC_NO_MAP, 0);
    FAILS(moc_map_add_coverage(&first, &store, unused), MOC_NO_MAP, 0);
    FAILS(moc_map_join(&first, &second), MOC_NO_MAP, 0);
    FAILS(moc_map_begin(&first, &store, start, 0), MOC_BAD_COUNT, 0);
    FAILS(moc_map_begin(&first, &store, start, 65), MOC_BAD_COUNT, 65);
    FAILS(moc_map_begin(&first, &store, start, 257), MOC_BAD_COUNT, 254);
    FAILS(moc_map_begin(&first, &store, UINT64_MAX, 65), MOC_NO_SUCH_SET, UINT64_MAX);
    FAILS(moc_map_begin(&first, &store, unused, 2), MOC_NO_SUCH_SET, unused);
    RETURNS(moc_map_begin(&first, &store, start, 3), 2);
    FAILS(moc_map_begin(&first, &store, UINT64_MAX, 65), MOC_CLIENT_IN_USE, 0);
    lines(&first);
    line_ends(&first);
    executed_lines(&first);
    cell_commands(&first);
    coverage_commands(&first);
    RETURNS(moc_map_join(&first, &second), 0);
    FAILS(moc_map_join(&first, &second), MOC_CLIENT_IN_USE, 0);
    RETURNS(moc_map_join(&second, &third), 1);
    FAILS(moc_map_join(&first, &fourth), MOC_NO_CLIENT, 0);
    CHECK(has_replies(&second, ""));
    CHECK(replies_with(&second, "remove 0/4-11", "changed 2305843009213693952\n"));
    /* The map still exists after the client that began it was closed. Its number is used again, without its replies. */
    moc_client_close(&first);
    moc_result result = moc_map_coverage(&third, &store);
    CHECK(result.code == MOC_OK && is_set(result.first, "0/2-3") && is_set(start, "0/0"));
    CHECK(moc_client_open(&first));
    RETURNS(moc_map_join(&third, &first), 2);
    CHECK(has_replies(&first, "") && replies_with(&first, "read 0/0-11", "cover 0/2-3\n"));
    RETURNS(moc_map_begin(&fourth, &store, start, 64), 63);
    CHECK(replies_with(&fourth, "read 0/0-11", "cover 0/0\n") && replies_with(&third, "read 0/0-11", "cover 0/2-3\n"));
    /* Clients do not run out while they are closed. */
    for (int i = 0; i < 1000; i++) {
        moc_client *closed = i % 2 ? &third : &second;
        moc_client_close(closed);
        CHECK(moc_client_open(closed) && is(moc_map_join(&first, closed), MOC_OK, (unsigned)i % 2, 0));
    }
    moc_client_close(&first);
    moc_client_close(&second);
    CHECK(replies_with(&third, "read 0/0-11", "cover 0/2-3\n"));
    moc_client_close(&third);
    moc_client_close(&fourth);
}

/* An id is only valid in its store. */
static void ids_of_stores(void)
{
    moc_store other;
    CHECK(moc_store_open(&other));
    moc_result a = moc_full(&store), b = moc_empty(&other);
    CHECK(a.code == MOC_OK && b.code == MOC_OK && a.first != b.first && b.first >> 48 != a.first >> 48 && b.first != 0);
    FAILS(moc_count(&other, a.first), MOC_NO_SUCH_SET, a.first);
    FAILS(moc_count(&store, b.first), MOC_NO_SUCH_SET, b.first);
    FAILS(moc_free(&store, b.first), MOC_NO_SUCH_SET, b.first);
    FAILS(moc_meets(&store, a.first, b.first), MOC_NO_SUCH_SET, b.first);
    NO_ID(moc_union(&other, a.first, b.first), MOC_NO_SUCH_SET, a.first);
    moc_result shared = moc_share(&store, a.first, &other);
    CHECK(shared.code == MOC_OK && shared.first == b.first + 1 && is(moc_count(&other, shared.first), MOC_OK, 12 * BASE, 0));
    NO_ID(moc_share(&store, b.first, &other), MOC_NO_SUCH_SET, b.first);
    RETURNS(moc_free(&store, a.first), 0);
    RETURNS(moc_count(&other, shared.first), 12 * BASE);
    moc_store_close(&other);
}

/* Returns whether a call opened a store with only the coverage of an ASCII text. Closes the store. */
static bool opens(moc_result result, moc_store *opened, const char *expected)
{
    moc_text written = {NULL, 0};
    bool is_equal = result.code == MOC_OK && moc_write_ascii(opened, result.first, MOC_NO_ORDER, &written).code == MOC_OK
                    && strcmp(written.bytes, expected) == 0;
    moc_text_free(&written);
    moc_store_close(opened);
    return is_equal;
}

/* Operations and queries on coverages of two stores. The sets are those of the first recipe of docs/PYTHON.md. */
static void two_stores(void)
{
    moc_store other, opened;
    CHECK(moc_store_open(&other));
    uint64_t a = set("0/0 1/4-5"), b = moc_read_ascii(&other, bytes("1/3-4 6-7 2/20 32"), 17).first;
    CHECK(opens(moc_open_union(&store, a, &other, b, &opened), &opened, "0/0-1 2/32\n"));
    CHECK(opens(moc_open_intersection(&store, a, &other, b, &opened), &opened, "1/3-4 2/20\n"));
    CHECK(opens(moc_open_difference(&store, a, &other, b, &opened), &opened, "1/0-2 2/21-23\n"));
    CHECK(opens(moc_open_difference(&other, b, &store, a, &opened), &opened, "1/6-7 2/32\n"));
    CHECK(opens(moc_open_symmetric(&store, a, &other, b, &opened), &opened, "1/0-2 6-7 2/21-23 32\n"));
    CHECK(opens(moc_open_union(&store, a, &store, a, &opened), &opened, "0/0 1/4-5\n"));
    RETURNS(moc_pair_count_common(&store, a, &other, b), BASE / 2 + BASE / 16);
    RETURNS(moc_pair_meets(&store, a, &other, b), 1);
    RETURNS(moc_pair_meets(&store, set("0/3"), &other, b), 0);
    RETURNS(moc_pair_covers(&store, a, &other, b), 0);
    RETURNS(moc_pair_covers(&store, set("0/0-2"), &other, b), 1);
    RETURNS(moc_pair_covers(&other, b, &store, set("2/12")), 1);
    RETURNS(moc_pair_same(&store, a, &other, b), 0);
    RETURNS(moc_pair_same(&store, set("2/32 20 1/7 3-4 6"), &other, b), 1);
    RETURNS(moc_pair_same(&store, a, &store, a), 1);
    FAILS(moc_pair_meets(&store, unused, &other, a), MOC_NO_SUCH_SET, unused);
    FAILS(moc_pair_same(&store, a, &other, a), MOC_NO_SUCH_SET, a);
    opened.at = &opened;
    NO_ID(moc_open_union(&other, a, &other, a, &opened), MOC_NO_SUCH_SET, a);
    CHECK(!opened.at);
    opened.at = &opened;
    NO_ID(moc_open_union(&store, a, &other, a, &opened), MOC_NO_SUCH_SET, a);
    CHECK(!opened.at);
    moc_result made = moc_open_union(&store, a, &other, b, &opened);
    CHECK(made.code == MOC_OK && moc_free(&store, a).code == MOC_OK);
    RETURNS(moc_count(&opened, made.first), 2 * BASE + BASE / 16);
    moc_result next = moc_empty(&opened);
    CHECK(next.code == MOC_OK && next.first == made.first + 1);
    moc_store_close(&opened);
    moc_store_close(&other);
}

#define MADE 2000

/* Makes coverages in the common store, and checks and frees them. */
static void *use_common_store(void *number)
{
    uint64_t cell = *(const unsigned *)number, ids[MADE];
    for (unsigned i = 0; i < MADE; i++)
        ids[i] = moc_from_cells(&store, 0, &cell, 1).first;
    for (unsigned i = 0; i < MADE; i++) {
        moc_text pixels;
        if (moc_contains(&store, ids[i], cell * BASE).first != 1 || moc_count(&store, ids[i]).first != BASE)
            return NULL;
        if (moc_write_uniq(&store, ids[i], &pixels).code || strtoull(pixels.bytes, NULL, 10) != 4 + cell)
            return NULL;
        moc_text_free(&pixels);
        if (moc_free(&store, ids[i]).code)
            return NULL;
    }
    return number;
}

/* Several threads use one store without a lock. A process that forks meanwhile has a child that can use the store and a map. */
static void common_store(void)
{
    pthread_t threads[4];
    unsigned cells[4] = {1, 2, 3, 4};
    moc_client client;
    uint64_t start = set("0/7");
    CHECK(moc_client_open(&client) && moc_map_begin(&client, &store, start, 1).code == MOC_OK);
    for (int i = 0; i < 4; i++)
        CHECK(pthread_create(&threads[i], NULL, use_common_store, &cells[i]) == 0);
    for (int i = 0; i < 20; i++) {
        pid_t child = fork();
        if (child == 0) {
            alarm(30);
            bool is_right = is_set(start, "0/7") && is(moc_map_count_coverage(&client, &store, start), MOC_OK, BASE, 0);
            moc_client_close(&client);
            moc_store_close(&store);
            _exit(is_right ? 0 : 1);
        }
        int status = -1;
        CHECK(child > 0 && waitpid(child, &status, 0) == child && status == 0);
    }
    for (int i = 0; i < 4; i++) {
        void *answer = NULL;
        CHECK(pthread_join(threads[i], &answer) == 0 && answer == &cells[i]);
    }
    moc_client_close(&client);
}

#define TURNS 20000
static pthread_barrier_t all_begin;

struct worker {
    moc_store store;
    moc_client client;
    unsigned number, torn, failures, copied;
};

/* Executes a line, and repeats it while another client holds a part. */
static void apply_until_free(struct worker *worker, const char *commands)
{
    moc_result result;
    while ((result = line(&worker->client, commands)).code == MOC_BUSY)
        sched_yield();
    worker->failures += result.code != MOC_OK;
}

/* Adds a cell that no other call adds, without a line, and repeats the call while another client holds its part. */
static void add_cell(struct worker *worker, uint64_t cell)
{
    moc_result result;
    while ((result = moc_map_add(&worker->client, 9, &cell, 1)).code == MOC_BUSY)
        sched_yield();
    worker->failures += result.code != MOC_OK || result.first != UINT64_C(1) << 40;
}

/* Copies the map's coverage, or checks that the error has the part and the number of the other client. The other client has the number of
   this thread, because the first client of the map has the number 1. */
static void copy_map(struct worker *worker)
{
    moc_result copy = moc_map_coverage(&worker->client, &worker->store);
    if (copy.code == MOC_BUSY) {
        worker->failures += copy.first != UINT64_MAX || (uint32_t)copy.second > 11 || copy.second >> 32 != worker->number;
    } else {
        worker->copied++;
        worker->failures += copy.code != MOC_OK || moc_free(&worker->store, copy.first).code != MOC_OK;
    }
}

/* Adds and removes two cells in different parts of the sky together. Checks that the map never has only one of them. Also adds other
   cells. */
static void *share(void *given)
{
    struct worker *worker = given;
    pthread_barrier_wait(&all_begin);
    for (unsigned turn = 0; turn < TURNS; turn++) {
        add_cell(worker, worker->number * TURNS + turn);
        if (turn % 8 == 0)
            copy_map(worker);
        apply_until_free(worker, turn % 2 == worker->number ? "add 3/100 ; add 3/400" : "remove 3/100 ; remove 3/400");
        apply_until_free(worker, "count 3/100 ; count 3/400");
        worker->torn += !has_replies(&worker->client, "total 4503599627370496 ; total 4503599627370496\n")
                        && !has_replies(&worker->client, "total 0 ; total 0\n");
    }
    return worker;
}

/* Runs two threads, each with a handle of one map. Lines are atomic, and no change is lost. */
static void sharing(void)
{
    struct worker workers[2] = {{.number = 0}, {.number = 1}};
    pthread_t threads[2];
    CHECK(moc_client_open(&workers[0].client) && moc_client_open(&workers[1].client));
    CHECK(moc_store_open(&workers[0].store) && moc_store_open(&workers[1].store));
    RETURNS(moc_map_begin(&workers[0].client, &store, moc_empty(&store).first, 2), 1);
    RETURNS(moc_map_join(&workers[0].client, &workers[1].client), 0);
    CHECK(pthread_barrier_init(&all_begin, NULL, 2) == 0);
    for (unsigned i = 0; i < 2; i++)
        CHECK(pthread_create(&threads[i], NULL, share, &workers[i]) == 0);
    for (unsigned i = 0; i < 2; i++) {
        CHECK(pthread_join(threads[i], NULL) == 0);
        CHECK(workers[i].torn == 0 && workers[i].failures == 0 && workers[i].copied > 0);
    }
    pthread_barrier_destroy(&all_begin);
    moc_store_close(&workers[0].store);
    moc_store_close(&workers[1].store);
    apply_until_free(&workers[0], "remove 3/100 400");
    moc_result result = moc_map_coverage(&workers[1].client, &store);
    CHECK(result.code == MOC_OK && is_set(result.first, "9/0-39999"));
    moc_client_close(&workers[0].client);
    moc_client_close(&workers[1].client);
}

static volatile bool is_finished;

/* Holds all parts of the map most of the time. */
static void *invert_always(void *client)
{
    unsigned failures = 0;
    while (!is_finished)
        failures += line(client, "invert ; invert ; invert ; invert ; invert ; invert ; invert ; invert").code != MOC_OK;
    return failures ? NULL : client;
}

/* Counts all pixels until the thread is cancelled. */
static void *count_always(void *client)
{
    while (line(client, "count 0/0-11").code == MOC_OK)
        ;
    return client;
}

/* A client with a timeout waits for the parts that another one holds. A thread that waits may be cancelled. */
static void timeouts(void)
{
    static moc_range ranges[20000];
    for (uint64_t i = 0; i < 20000; i++)
        ranges[i] = (moc_range){170000000000000 * i, 170000000000000 * i + 7};
    moc_client holder, client;
    pthread_t thread;
    void *answer = NULL;
    uint64_t start = moc_from_ranges(&store, ranges, 20000).first;
    CHECK(moc_client_open(&holder) && moc_client_open(&client));
    RETURNS(moc_map_busy_timeout(&client, 1), 0);
    RETURNS(moc_map_begin(&holder, &store, start, 2), 1);
    RETURNS(moc_map_join(&holder, &client), 0);
    RETURNS(moc_map_busy_timeout(&holder, MOC_NO_TIMEOUT), 0);
    CHECK(pthread_create(&thread, NULL, invert_always, &holder) == 0);
    unsigned busy = 0, failed_calls = 0;
    for (int i = 0; i < 100; i++) {
        /* After a call that has waited, the holder skips tries for a while. It needs the pause to hold the parts again. */
        struct timespec pause = {0, i % 2 ? 0 : 3000000};
        nanosleep(&pause, NULL);
        moc_result result = moc_map_busy_timeout(&client, i % 2 ? 20000 : 0);
        CHECK(result.code == MOC_OK);
        result = moc_map_count_coverage(&client, &store, start);
        busy += result.code == MOC_BUSY && i % 2 == 0 && result.second == 1;
        failed_calls += result.code != MOC_OK && (i % 2 || result.code != MOC_BUSY);
    }
    for (int i = 0; i < 10; i++) {
        pthread_t waiting;
        struct timespec pause = {0, 1000000};
        CHECK(pthread_create(&waiting, NULL, count_always, &client) == 0);
        nanosleep(&pause, NULL);
        CHECK(pthread_cancel(waiting) == 0 && pthread_join(waiting, &answer) == 0 && answer == PTHREAD_CANCELED);
        RETURNS(moc_map_busy_timeout(&client, 20000), 0);
    }
    is_finished = true;
    CHECK(pthread_join(thread, &answer) == 0 && answer == &holder);
    CHECK(busy > 0 && failed_calls == 0);
    moc_client_close(&holder);
    moc_client_close(&client);
}

int main(void)
{
    CHECK(moc_store_open(&store));
    moc_result some = moc_empty(&store);
    unused = some.first + 1000000;
    texts();
    operations();
    queries();
    arrays();
    numbers();
    freed_ids();
    threads();
    clients();
    ids_of_stores();
    two_stores();
    common_store();
    sharing();
    timeouts();
    moc_store_close(&store);
    return report();
}
