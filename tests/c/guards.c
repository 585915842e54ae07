/* Calls each function of ploverchaise.h with each of its pointers null, not aligned, and overlapping another pointer, with null handles,
   and with empty arrays at such pointers. The start of ploverchaise.h has the expected results. The last line printed is `N passed, M
   failed`. library.py builds and runs the program, with calls for each pointer of each function (guard_rows.h) that guard_rows.py makes
   from ploverchaise.h. */
#include "checks.h"
#include "ploverchaise.h"

#include <string.h>

/* A store with one coverage, the whole sky, and its id; a client of a map of this coverage, with replies to a line; a client without a map;
   and another store. */
static moc_store store, target;
static uint64_t sky;
static moc_client client, other;
/* Handles that are zeroed. */
static moc_store no_store;
static moc_client no_client;
/* The arrays that calls read, and may write. */
static struct {
    moc_range ranges[1];
    uint64_t cells[1], rows[1][8];
    uint32_t xs[1], ys[1];
    uint8_t bytes[1], faces[1];
    moc_text text;
    moc_store opened;
} at;

/* Two memory areas, and their expected contents. In the first one, all numbers are 17. The second one has a store at byte 32, with one
   coverage, the whole sky; two clients at bytes 96 and 104, the first of a map of two clients; and zeros elsewhere. */
typedef union {
    uint64_t words[32];
    moc_store stores[32];
    moc_client clients[32];
} memory;
static memory numbers, handles, numbers_kept, handles_kept;
static uint64_t placed_sky;
/* The areas as arrays of different types. */
#define VIEW(type, name, in) static type *const name = (void *)&in
VIEW(uint64_t, words, numbers);
VIEW(uint32_t, halves, numbers);
VIEW(uint8_t, bytes, numbers);
typedef uint64_t row[8];
VIEW(row, rows, numbers);
VIEW(moc_store, stores, handles);
VIEW(moc_client, clients, handles);
VIEW(moc_range, placed_ranges, handles);
VIEW(uint64_t, placed_words, handles);
VIEW(uint8_t, placed_bytes, handles);
VIEW(moc_text, placed_texts, handles);

/* Returns whether a call has made this text. Frees the text. */
static bool has_text(moc_result result, moc_text *text, const char *expected)
{
    bool is_equal = is(result, MOC_OK, strlen(expected), 0) && strcmp(text->bytes, expected) == 0;
    moc_text_free(text);
    return is_equal;
}

/* Returns whether nothing has changed: the coverages of the store, the clients, and the arrays that calls may write. */
static bool is_unchanged(void)
{
    moc_text text, reply;
    for (size_t i = 0; i < sizeof at; i++)
        if (((const uint8_t *)&at)[i] != 0)
            return false;
    if (memcmp(&numbers, &numbers_kept, sizeof numbers) != 0 || memcmp(&handles, &handles_kept, sizeof handles) != 0)
        return false;
    return has_text(moc_write_ascii(&store, sky, MOC_NO_ORDER, &text), &text, "0/0-11\n")
           && has_text(moc_map_answer(&client, &reply), &reply, "cover 0/0-11\n")
           && is(moc_map_apply(&other, NULL, 0), MOC_NO_MAP, 0, 0);
}

static bool is_done(moc_result result)
{
    moc_text_free(&at.text);
    numbers = numbers_kept;
    handles = handles_kept;
    return result.code == MOC_OK && is_unchanged();
}

/* Checks that a call with an invalid pointer returns this code and this argument, and changes nothing. */
#define WRONG_AT(code, argument, call) CHECK(is(call, code, argument, 0) && is_unchanged())
/* Checks the same of a call that makes a coverage. */
#define NO_ID_AT(code, argument, call) CHECK(is(call, code, UINT64_MAX, argument) && is_unchanged())
/* Check a call with a null pointer, and with a pointer that is not aligned. */
#define NULL_AT(argument, call) WRONG_AT(MOC_NULL, argument, call)
#define MISALIGNED_AT(argument, call) WRONG_AT(MOC_MISALIGNED, argument, call)
/* Checks that a call with adjacent arguments succeeds, and restores the memory that it wrote for the next call. */
#define ACCEPTED(call) CHECK(is_done(call))
/* The same of a call that makes a text, which is freed. */
#define ACCEPTED_TEXT(call, text)          \
    do {                                \
        moc_result made = call;         \
        moc_text_free(text);            \
        CHECK(is_done(made));           \
    } while (0)
/* Checks that the guard accepts the pointers of a call. */
static bool is_valid(moc_result result)
{
    moc_text_free(&at.text);
    return result.code != MOC_NULL && result.code != MOC_MISALIGNED && result.code != MOC_OVERLAP && is_unchanged();
}
#define VALID(call) CHECK(is_valid(call))

#include "guard_rows.h"

/* Checks that the first null pointer is reported, before any other error. */
static void before_all_else(void)
{
    NULL_AT(0, moc_contains_all(NULL, 99, NULL, 1, NULL, 2));
    NULL_AT(2, moc_contains_all(&store, 99, NULL, 1, NULL, 2));
    NULL_AT(4, moc_contains_all(&store, 99, NULL, 0, NULL, 2));
    NULL_AT(1, moc_nest_to_face_xy(30, NULL, 1, NULL, 2, NULL, 3, NULL, 4));
    NULL_AT(7, moc_nest_to_face_xy(30, NULL, 0, NULL, 0, NULL, 0, NULL, 1));
    NO_ID_AT(MOC_NULL, 2, moc_from_cells(&store, 30, NULL, 1));
    NULL_AT(2, moc_ranges(&store, 99, NULL, 1));
    NULL_AT(0, moc_map_begin(NULL, NULL, 99, 0));
    NULL_AT(1, moc_map_begin(&client, NULL, 99, 0));
    NULL_AT(0, moc_map_join(NULL, NULL));
    NULL_AT(1, moc_map_apply(&other, NULL, 1));
    NO_ID_AT(MOC_NULL, 2, moc_open_union(&store, 99, NULL, 99, NULL));
}

/* Checks that a call with an invalid pointer zeroes the store that it would open, which then may be closed. */
static void stores_of_invalid_calls(void *misaligned)
{
    static const moc_store old = {&sky};
    at.opened = old;
    CHECK(is(moc_open_union(NULL, 99, misaligned, 99, &at.opened), MOC_NULL, UINT64_MAX, 0) && is_unchanged());
    at.opened = old;
    CHECK(is(moc_open_difference(&store, sky, &no_store, 99, &at.opened), MOC_NULL, UINT64_MAX, 2) && is_unchanged());
    at.opened = old;
    CHECK(is(moc_open_symmetric(misaligned, sky, &store, sky, &at.opened), MOC_MISALIGNED, UINT64_MAX, 0) && is_unchanged());
    at.opened = old;
    CHECK(is(moc_open_intersection(&store, sky, &target, sky, &at.opened), MOC_NO_SUCH_SET, UINT64_MAX, sky) && is_unchanged());
    moc_store copy = store;
    CHECK(is(moc_pair_same(&store, sky, &copy, sky), MOC_OK, 1, 0) && is_unchanged());
}

/* Checks that a call with an invalid pointer zeroes a text, which then may be freed. */
static bool zeroes_text(moc_result result, uint32_t code)
{
    bool is_zeroed = result.code == code && !at.text.bytes && !at.text.length;
    moc_text_free(&at.text);
    return is_zeroed;
}

static void texts_of_invalid_calls(void *misaligned)
{
    static char old[] = "old";
    const moc_text old_text = {old, 3};
    at.text = old_text;
    CHECK(zeroes_text(moc_map_execute(NULL, NULL, 0, &at.text), MOC_NULL));
    at.text = old_text;
    CHECK(zeroes_text(moc_map_answer(&no_client, &at.text), MOC_NULL));
    at.text = old_text;
    CHECK(zeroes_text(moc_map_execute(&client, NULL, 1, &at.text), MOC_NULL));
    at.text = old_text;
    CHECK(zeroes_text(moc_write_ascii(misaligned, sky, MOC_NO_ORDER, &at.text), MOC_MISALIGNED));
    at.text = old_text;
    CHECK(zeroes_text(moc_draw(&no_store, sky, &at.text), MOC_NULL));
}

/* Calls functions with pointers that are not aligned for a store, a handle, a number of 64 bits, a range or a row. */
static void not_aligned(void *misaligned)
{
    misaligned_pointers(misaligned);
    CHECK(!moc_store_open(misaligned) && !moc_client_open(misaligned) && is_unchanged());

    /* The first pointer that is not aligned is reported, before any other error except a null pointer. */
    NO_ID_AT(MOC_MISALIGNED, 2, moc_from_cells(&store, 30, misaligned, 1));
    MISALIGNED_AT(2, moc_contains_all(&store, 99, misaligned, 1, misaligned, 2));
    MISALIGNED_AT(1, moc_nest_to_ring(30, misaligned, 1, misaligned, 2));
    MISALIGNED_AT(3, moc_nest_to_ring(30, misaligned, 0, misaligned, 2));
    MISALIGNED_AT(0, moc_map_begin(misaligned, misaligned, 0, 0));
    NULL_AT(3, moc_nest_to_ring(0, misaligned, 1, NULL, 1));
    NULL_AT(1, moc_map_begin(misaligned, NULL, 0, 1));
    NULL_AT(1, moc_map_join(misaligned, NULL));
    NULL_AT(2, moc_ranges(misaligned, 0, NULL, 1));
}

/* Calls functions with pointers that are not aligned for a number of 32 bits. Bytes need no alignment. */
static void not_aligned_halves(void *misaligned)
{
    misaligned_halves(misaligned);
    ACCEPTED(moc_nest_to_face_xy(1, words, 1, misaligned, 1, halves + 40, 1, halves + 50, 1));
    ACCEPTED(moc_uniq_to_nest(words, 1, misaligned, 1, words + 20, 1));
    ACCEPTED(moc_contains_all(&store, sky, words, 1, misaligned, 1));
}

/* Calls functions with adjacent arrays. The number 17 is a cell of order 1, a NUNIQ number and a pixel. */
static void next_to_arrays(void)
{
    ACCEPTED(moc_contains_all(&store, sky, words + 4, 2, bytes + 30, 2));
    ACCEPTED(moc_contains_all(&store, sky, words + 4, 2, bytes + 48, 2));

    ACCEPTED(moc_nest_to_ring(1, words + 4, 2, words + 2, 2));
    ACCEPTED(moc_nest_to_ring(1, words + 4, 2, words + 6, 2));
    ACCEPTED(moc_ring_to_nest(1, words + 4, 2, words + 2, 2));
    ACCEPTED(moc_ring_to_nest(1, words + 4, 2, words + 6, 2));
    ACCEPTED(moc_nest_to_uniq(1, words + 4, 2, words + 2, 2));
    ACCEPTED(moc_nest_to_uniq(1, words + 4, 2, words + 6, 2));

    ACCEPTED(moc_uniq_to_nest(words + 4, 2, bytes + 30, 2, words + 20, 2));
    ACCEPTED(moc_uniq_to_nest(words + 4, 2, bytes + 48, 2, words + 20, 2));
    ACCEPTED(moc_uniq_to_nest(words + 4, 2, bytes + 200, 2, words + 2, 2));
    ACCEPTED(moc_uniq_to_nest(words + 4, 2, bytes + 200, 2, words + 6, 2));
    ACCEPTED(moc_uniq_to_nest(words + 20, 2, bytes + 30, 2, words + 4, 2));
    ACCEPTED(moc_uniq_to_nest(words + 20, 2, bytes + 48, 2, words + 4, 2));

    ACCEPTED(moc_nest_to_face_xy(1, words + 4, 2, bytes + 30, 2, halves + 40, 2, halves + 50, 2));
    ACCEPTED(moc_nest_to_face_xy(1, words + 4, 2, bytes + 48, 2, halves + 40, 2, halves + 50, 2));
    ACCEPTED(moc_nest_to_face_xy(1, words + 4, 2, bytes, 2, halves + 6, 2, halves + 50, 2));
    ACCEPTED(moc_nest_to_face_xy(1, words + 4, 2, bytes, 2, halves + 12, 2, halves + 50, 2));
    ACCEPTED(moc_nest_to_face_xy(1, words + 4, 2, bytes, 2, halves + 50, 2, halves + 6, 2));
    ACCEPTED(moc_nest_to_face_xy(1, words + 4, 2, bytes, 2, halves + 50, 2, halves + 12, 2));
    ACCEPTED(moc_nest_to_face_xy(1, words + 20, 2, bytes + 30, 2, halves + 8, 2, halves + 50, 2));
    ACCEPTED(moc_nest_to_face_xy(1, words + 20, 2, bytes + 40, 2, halves + 8, 2, halves + 50, 2));
    ACCEPTED(moc_nest_to_face_xy(1, words + 20, 2, bytes + 30, 2, halves + 50, 2, halves + 8, 2));
    ACCEPTED(moc_nest_to_face_xy(1, words + 20, 2, bytes + 40, 2, halves + 50, 2, halves + 8, 2));
    ACCEPTED(moc_nest_to_face_xy(1, words + 20, 2, bytes, 2, halves + 8, 2, halves + 6, 2));
    ACCEPTED(moc_nest_to_face_xy(1, words + 20, 2, bytes, 2, halves + 8, 2, halves + 10, 2));

    ACCEPTED(moc_touching(1, words + 6, 2, rows + 1, 2));
    ACCEPTED(moc_touching(1, words + 24, 2, rows + 1, 2));

    ACCEPTED(moc_neighbours(1, words + 6, 2, rows + 1, 2));
    ACCEPTED(moc_neighbours(1, words + 24, 2, rows + 1, 2));
}

/* Calls functions with arrays that are adjacent to a store or a handle. */
static void next_to_handles(void)
{
    ACCEPTED(moc_contains_all(stores + 4, placed_sky, placed_words + 2, 2, placed_bytes + 40, 2));
    ACCEPTED(moc_contains_all(stores + 4, placed_sky, placed_words + 5, 2, placed_bytes + 30, 2));
    ACCEPTED(moc_ranges(stores + 4, placed_sky, placed_ranges + 1, 1));
    ACCEPTED(moc_ranges(stores + 4, placed_sky, placed_ranges + 3, 1));
    ACCEPTED(moc_cells(stores + 4, placed_sky, placed_words + 5, 12));
    ACCEPTED_TEXT(moc_write_uniq(stores + 4, placed_sky, placed_texts + 1), placed_texts + 1);
    ACCEPTED_TEXT(moc_write_uniq(stores + 4, placed_sky, (void *)(placed_words + 5)), (void *)(placed_words + 5));
    ACCEPTED_TEXT(moc_map_answer(clients + 12, placed_texts + 5), placed_texts + 5);
    ACCEPTED_TEXT(moc_map_answer(clients + 12, (void *)(placed_words + 13)), (void *)(placed_words + 13));
    ACCEPTED(moc_from_cells(stores + 4, 0, placed_words + 3, 1));
    ACCEPTED(moc_from_ranges(stores + 4, placed_ranges + 3, 1));
    ACCEPTED(moc_map_join(clients + 12, clients + 13));
}

/* Checks that the first argument that overlaps an earlier one is reported, before any other error except pointers that are null or not
   aligned. Impossible lengths do not hide an overlap. An empty array overlaps nothing. */
static void overlaps_and_others(void)
{
    CHECK(is(moc_nest_to_face_xy(30, words + 4, 2, bytes, 3, halves, 4, halves + 8, 5), MOC_OVERLAP, 5, 0) && is_unchanged());
    CHECK(is(moc_contains_all(stores + 4, 99, words + 4, 2, bytes + 40, 3), MOC_OVERLAP, 4, 0) && is_unchanged());
    moc_client copy = client;
    moc_store store_copy = store;
    CHECK(is(moc_map_join(&other, &other), MOC_OVERLAP, 1, 0) && is_unchanged());
    CHECK(is(moc_map_join(&client, &copy), MOC_OVERLAP, 1, 0) && is_unchanged());
    NO_ID_AT(MOC_OVERLAP, 2, moc_share(&store, sky, &store_copy));
    CHECK(is(moc_map_begin(clients + 12, stores + 12, 99, 0), MOC_OVERLAP, 1, 0) && is_unchanged());
    NULL_AT(7, moc_nest_to_face_xy(0, words + 4, 2, bytes + 32, 2, halves + 8, 2, NULL, 2));
    void *misaligned = bytes + 36;
    MISALIGNED_AT(4, moc_uniq_to_nest(words + 4, 2, bytes + 32, 2, misaligned, 2));

    CHECK(is(moc_nest_to_ring(1, words + 4, SIZE_MAX / 8 + 2, words + 6, 2), MOC_OVERLAP, 3, 0) && is_unchanged());
    CHECK(is(moc_nest_to_ring(1, words + 6, 2, words + 4, SIZE_MAX / 8 + 2), MOC_OVERLAP, 3, 0) && is_unchanged());
    CHECK(is(moc_nest_to_ring(1, words + 4, 2, words + 5, SIZE_MAX), MOC_OVERLAP, 3, 0) && is_unchanged());
    CHECK(is(moc_touching(1, words + 24, 1, rows + 1, SIZE_MAX / 64 + 2), MOC_OVERLAP, 3, 0) && is_unchanged());

    ACCEPTED(moc_nest_to_ring(1, words + 4, 0, words + 4, 0));
    CHECK(is(moc_nest_to_ring(1, words + 4, 2, words + 5, 0), MOC_LENGTHS_DIFFER, 0, 0) && is_unchanged());
    CHECK(is(moc_nest_to_ring(1, words + 5, 0, words + 4, 2), MOC_LENGTHS_DIFFER, 0, 0) && is_unchanged());
    ACCEPTED(moc_nest_to_ring(1, misaligned, 0, misaligned, 0));
    ACCEPTED(moc_uniq_to_nest(misaligned, 0, misaligned, 0, misaligned, 0));
    ACCEPTED(moc_touching(1, misaligned, 0, misaligned, 0));
    NO_ID_AT(MOC_NO_SUCH_ORDER, 30, moc_from_cells(&store, 30, misaligned, 0));
    CHECK(is(moc_ranges(&store, sky, misaligned, 0), MOC_BUFFER_TOO_SHORT, 1, 0) && is_unchanged());
}

/* Calls functions with empty arrays at null pointers. New sets have the next identifiers, so no earlier call made a set. */
static void empty_arrays(void)
{
    CHECK(is(moc_from_ranges(&store, NULL, 0), MOC_OK, sky + 1, 0));
    CHECK(is(moc_from_cells(&store, 0, NULL, 0), MOC_OK, sky + 2, 0));
    CHECK(is(moc_from_uniqs(&store, NULL, 0), MOC_OK, sky + 3, 0));
    CHECK(is(moc_read_ascii(&store, NULL, 0), MOC_OK, sky + 4, MOC_NO_ORDER));
    NO_ID_AT(MOC_JSON_NOT_JSON, 0, moc_read_json(&store, NULL, 0));
    CHECK(is(moc_read_uniq(&store, NULL, 0), MOC_OK, sky + 5, MOC_NO_ORDER));
    for (uint64_t id = sky + 1; id <= sky + 5; id++)
        CHECK(is(moc_is_empty(&store, id), MOC_OK, 1, 0));
    NO_ID_AT(MOC_NO_SUCH_ORDER, 30, moc_from_cells(&store, 30, NULL, 0));

    CHECK(is(moc_contains_all(&store, sky, NULL, 0, at.bytes, 0), MOC_OK, 0, 0));
    CHECK(is(moc_contains_all(&store, sky, at.cells, 0, NULL, 0), MOC_OK, 0, 0));
    CHECK(is(moc_contains_all(&store, sky, NULL, 0, at.bytes, 1), MOC_LENGTHS_DIFFER, 0, 0));
    CHECK(is(moc_ranges(&store, sky + 1, NULL, 0), MOC_OK, 0, 0));
    CHECK(is(moc_ranges(&store, sky, NULL, 0), MOC_BUFFER_TOO_SHORT, 1, 0));
    CHECK(is(moc_cells(&store, sky + 1, NULL, 0), MOC_OK, 0, 0));
    CHECK(is(moc_cells(&store, sky, NULL, 0), MOC_BUFFER_TOO_SHORT, 12, 0));

    CHECK(is(moc_nest_to_ring(0, NULL, 0, at.cells, 0), MOC_OK, 0, 0));
    CHECK(is(moc_nest_to_ring(0, at.cells, 0, NULL, 0), MOC_OK, 0, 0));
    CHECK(is(moc_ring_to_nest(0, NULL, 0, at.cells, 0), MOC_OK, 0, 0));
    CHECK(is(moc_ring_to_nest(0, at.cells, 0, NULL, 0), MOC_OK, 0, 0));
    CHECK(is(moc_nest_to_uniq(0, NULL, 0, at.cells, 0), MOC_OK, 0, 0));
    CHECK(is(moc_nest_to_uniq(0, at.cells, 0, NULL, 0), MOC_OK, 0, 0));
    CHECK(is(moc_uniq_to_nest(NULL, 0, at.bytes, 0, at.cells, 0), MOC_OK, 0, 0));
    CHECK(is(moc_uniq_to_nest(at.cells, 0, NULL, 0, at.cells, 0), MOC_OK, 0, 0));
    CHECK(is(moc_uniq_to_nest(at.cells, 0, at.bytes, 0, NULL, 0), MOC_OK, 0, 0));
    CHECK(is(moc_nest_to_face_xy(0, NULL, 0, at.faces, 0, at.xs, 0, at.ys, 0), MOC_OK, 0, 0));
    CHECK(is(moc_nest_to_face_xy(0, at.cells, 0, NULL, 0, at.xs, 0, at.ys, 0), MOC_OK, 0, 0));
    CHECK(is(moc_nest_to_face_xy(0, at.cells, 0, at.faces, 0, NULL, 0, at.ys, 0), MOC_OK, 0, 0));
    CHECK(is(moc_nest_to_face_xy(0, at.cells, 0, at.faces, 0, at.xs, 0, NULL, 0), MOC_OK, 0, 0));
    CHECK(is(moc_touching(0, NULL, 0, at.rows, 0), MOC_OK, 0, 0));
    CHECK(is(moc_touching(0, at.cells, 0, NULL, 0), MOC_OK, 0, 0));
    CHECK(is(moc_neighbours(0, NULL, 0, at.rows, 0), MOC_OK, 0, 0));
    CHECK(is(moc_neighbours(0, at.cells, 0, NULL, 0), MOC_OK, 0, 0));
    CHECK(is(moc_touching(0, at.cells, 1, NULL, 0), MOC_LENGTHS_DIFFER, 0, 0));
    CHECK(is(moc_nest_to_ring(30, NULL, 0, NULL, 0), MOC_NO_SUCH_ORDER, 30, 0));

    CHECK(is(moc_map_apply(&client, NULL, 0), MOC_LINE_EMPTY_COMMAND, 0, 0));
    CHECK(is_unchanged());
}

int main(void)
{
    static const uint8_t line[] = "read 0/0-11";
    CHECK(!moc_store_open(NULL) && !moc_client_open(NULL));
    CHECK(moc_store_open(&store) && moc_store_open(&target) && moc_client_open(&client) && moc_client_open(&other));
    moc_result result = moc_full(&store);
    sky = result.first;
    CHECK(result.code == MOC_OK && is(moc_map_begin(&client, &store, sky, 2), MOC_OK, 1, 0));
    CHECK(is(moc_map_apply(&client, line, sizeof line - 1), MOC_OK, 0, 0));
    for (size_t i = 0; i < 32; i++)
        numbers.words[i] = 17;
    CHECK(moc_store_open(stores + 4) && moc_client_open(clients + 12) && moc_client_open(clients + 13));
    result = moc_full(stores + 4);
    placed_sky = result.first;
    CHECK(result.code == MOC_OK && is(moc_map_begin(clients + 12, stores + 4, placed_sky, 2), MOC_OK, 1, 0));
    CHECK(is(moc_map_apply(clients + 12, line, sizeof line - 1), MOC_OK, 0, 0));
    numbers_kept = numbers;
    handles_kept = handles;
    CHECK(is_unchanged());
    null_pointers();
    before_all_else();
    /* Pointers into the area of numbers and into the area of zeros. */
    texts_of_invalid_calls(bytes + 17);
    stores_of_invalid_calls(bytes + 17);
    for (size_t i = 1; i < 8; i++) {
        not_aligned(bytes + 16 + i);
        not_aligned(placed_bytes + 160 + i);
    }
    for (size_t i = 1; i < 4; i++)
        not_aligned_halves(bytes + 16 + i);
    overlapping_pointers();
    next_to_arrays();
    next_to_handles();
    overlaps_and_others();
    empty_arrays();
    empty_arrays_at_null();
    /* One more client is available, and the handle of another has no client. */
    CHECK(is(moc_map_join(&client, &other), MOC_OK, 0, 0));
    moc_client_close(handles.clients + 13);
    moc_client_close(handles.clients + 12);
    moc_store_close(handles.stores + 4);
    moc_store_close(&no_store);
    moc_client_close(&no_client);
    moc_store_close(NULL);
    moc_client_close(NULL);
    moc_store_close((void *)(bytes + 17));
    moc_client_close((void *)(bytes + 17));
    moc_text_free(NULL);
    moc_text_free((void *)(bytes + 17));
    moc_text_free(&at.text);
    moc_client_close(&other);
    moc_client_close(&client);
    moc_store_close(&target);
    moc_store_close(&store);
    /* A closed handle is zeroed, and a second close does nothing. */
    CHECK(is(moc_count(&store, sky), MOC_NULL, 0, 0) && is(moc_map_answer(&client, &at.text), MOC_NULL, 0, 0));
    moc_client_close(&client);
    moc_store_close(&store);
    return report();
}
