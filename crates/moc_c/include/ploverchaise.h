/* ploverchaise.h: sky coverages (MOC 2.0) and numbers of HEALPix cells, for C99 and C++. docs/C.md explains how to build and link.

   A store has coverages, each with an id. A call returns a result: MOC_OK with a value, or the code of an error with its position. A call
   that fails leaves the store unchanged. Threads that change one coverage at the same time share a map, and each has a client of it.

   Any thread may use any store and any client. A call waits until no other call uses the same store or client, and no timeout limits this
   wait. So threads that must work side by side have a store each, or a client each. A call that waits for a part of a map holds no lock
   between two tries. A fork waits until no other thread is in a call with a store or a client. The child may use all of them; they are
   copies, and no part of a map is held there. Calls that open or close wait for such a fork.

   The caller must ensure the following, which nothing checks:
   - A store that is not zeroed was opened by `moc_store_open`, and was not closed by `moc_store_close` through a copy of it. Only these
     calls read or write its content, and no other call uses the store when it is closed. The same holds for a client, `moc_client_open` and
     `moc_client_close`. A store or client that is opened again without a close is never freed.
   - An array is a pointer and a length in elements, and has as many elements. During a call, no other thread changes its arrays, or reads
     what it writes.
   - No call is made from a signal handler, and no signal handler forks. A thread in a call is not cancelled asynchronously. Deferred
     cancellation is safe: a call is only cancelled while it waits for a part of a map, and has no effect then.
   - A call has 32 kB of free stack, and `moc_read_json` 128 kB.
   - malloc, calloc, realloc and free belong to one allocator, and its blocks are aligned as C requires.

   All other arguments are allowed. An invalid id, order, cell or length gets its code. An order or a number of clients above 255 is
   reported as 254. A number that is not a pixel is in no coverage. An invalid pointer is reported before any other error; nothing is
   then read, and nothing is written but a text or the store that a call would open, which is zeroed. A null pointer gets MOC_NULL, and so
   does a pointer to a store or client that is zeroed, as after a failed open or a close. Otherwise a pointer that is not aligned for its
   type gets MOC_MISALIGNED. Otherwise what is not `const` gets MOC_OVERLAP if it overlaps another argument, and so does a store or a client
   that is a copy of another argument. An array of length 0 may be at any pointer, and overlaps nothing. */
#ifndef PLOVERCHAISE_H
#define PLOVERCHAISE_H

#include <stdbool.h>
#include <stddef.h>
#include <stdint.h>

#ifdef __cplusplus
extern "C" {
#endif

/* The version of the library: `moc_version` returns that of the linked one. */
#define MOC_VERSION_MAJOR 0
#define MOC_VERSION_MINOR 1
#define MOC_VERSION_PATCH 0

/* The greatest order, and the number of its cells, which are the pixels of all coverages: 12 * 4^29. */
#define MOC_MAX_ORDER 29
#define MOC_PIXEL_COUNT (UINT64_C(12) << 58)

/* As an order: no order. As a timeout: no limit. */
#define MOC_NO_ORDER UINT32_C(255)
#define MOC_NO_TIMEOUT UINT32_MAX

/* The greatest number of clients of a map. */
#define MOC_MAX_CLIENTS 64

/* A compiler warns if the result of such a function is not used. */
#ifdef __GNUC__
#define MOC_CHECKED __attribute__((warn_unused_result))
#else
#define MOC_CHECKED
#endif

/* A store of coverages. */
typedef struct moc_store {
    void *at;
} moc_store;

/* A client of a map that other threads change and query at the same time. */
typedef struct moc_client {
    void *at;
} moc_client;

/* The result of a call. Each code and each function state what `first` and `second` are; otherwise they are 0. */
typedef struct moc_result {
    uint32_t code;
    uint64_t first, second;
} moc_result;

/* A text in memory of `malloc`, which `moc_text_free` frees. A 0 follows its last byte. `length` does not count the 0. A call that makes a
   text ignores what `text` was before, and zeroes it if the call fails, unless the pointer to it is invalid. */
typedef struct moc_text {
    char *bytes;
    size_t length;
} moc_text;

/* The pixels of order 29 from `from` up to, not including, `to`, by their nested indices. */
typedef struct moc_range {
    uint64_t from, to;
} moc_range;

/* Codes: made by tools/codes.py from codes.tsv. */
enum {
    /* success */
    MOC_OK = 0,
    /* an allocation failed */
    MOC_MEMORY = 1,
    /* the buffer is too short; first: the number of elements that the call needs */
    MOC_BUFFER_TOO_SHORT = 2,
    /* no set has the id, or the set was freed; first: the id */
    MOC_NO_SUCH_SET = 3,
    /* the order is above 29; first: the order */
    MOC_NO_SUCH_ORDER = 4,
    /* two arrays that belong together differ in length */
    MOC_LENGTHS_DIFFER = 5,
    /* a number is not the number of a cell of the order; first: the position of the first such number, from 0 */
    MOC_NO_SUCH_CELL = 6,
    /* a number is not a NUNIQ number; first: the position of the first such number, from 0 */
    MOC_NOT_UNIQ = 7,
    /* a cell of the set is deeper than the stated order */
    MOC_TOO_COARSE = 8,
    /* a pointer is null; first: the number of the first such argument, from 0 */
    MOC_NULL = 9,

    /* An ASCII text. first: the offset of the byte, from 0 */
    /* a byte is not allowed there */
    MOC_ASCII_BAD_BYTE = 10,
    /* a cell has no order before it */
    MOC_ASCII_NO_ORDER = 11,
    /* an order is above 29 */
    MOC_ASCII_ORDER_TOO_LARGE = 12,
    /* a number is not the number of a cell of its order */
    MOC_ASCII_CELL_TOO_LARGE = 13,
    /* the last cell of a range is before its first cell */
    MOC_ASCII_BACKWARDS = 14,
    /* a word is incomplete */
    MOC_ASCII_UNFINISHED = 15,

    /* A JSON text. first: the number of the name, in byte order of the names; second: the number of the item of its array; both from 0 */
    /* the text is not valid JSON */
    MOC_JSON_NOT_JSON = 20,
    /* the value is not an object */
    MOC_JSON_NOT_OBJECT = 21,
    /* a name is not an order from 0 to 29 */
    MOC_JSON_BAD_ORDER = 22,
    /* the value of a name is not an array */
    MOC_JSON_NOT_ARRAY = 23,
    /* an item is not an unsigned integer of 64 bits */
    MOC_JSON_NOT_WHOLE = 24,
    /* an item is not the number of a cell of its order */
    MOC_JSON_CELL_TOO_LARGE = 25,

    /* A NUNIQ list. first: the number of the line, from 1 */
    /* a byte is not a digit */
    MOC_UNIQ_BAD_BYTE = 30,
    /* a number is not a NUNIQ number */
    MOC_UNIQ_NOT_UNIQ = 31,

    /* An array of ranges. first: the position of the range, from 0 */
    /* the end of a range is before its start */
    MOC_RANGE_BACKWARDS = 40,
    /* the end of a range is above 12 * 4^29 */
    MOC_RANGE_PIXEL_TOO_LARGE = 41,

    /* A line of commands. first: the number of the command; second: the byte of an error in a coverage, or of the command; both from 0 */
    /* the first word is not a command */
    MOC_LINE_UNKNOWN_WORD = 50,
    /* a command is blank */
    MOC_LINE_EMPTY_COMMAND = 51,
    /* the line has more than 16 commands */
    MOC_LINE_TOO_MANY_COMMANDS = 52,
    /* a command has too many or too few fields */
    MOC_LINE_WRONG_COUNT = 53,
    /* a field is not a number */
    MOC_LINE_BAD_NUMBER = 54,
    /* an order is above 29 */
    MOC_LINE_ORDER_TOO_LARGE = 55,
    /* a number is not the number of a cell of its order */
    MOC_LINE_CELL_TOO_LARGE = 56,
    /* a byte of a coverage is not allowed there */
    MOC_LINE_BAD_BYTE = 57,
    /* a cell has no order before it */
    MOC_LINE_NO_ORDER = 58,
    /* the last cell of a range is before its first cell */
    MOC_LINE_BACKWARDS = 59,
    /* a word of a coverage is incomplete */
    MOC_LINE_UNFINISHED = 60,

    /* Errors of schedules. No call returns them, and they have no numbers */
    /* a client number of a schedule is above 4294967295 */
    MOC_LINE_CLIENT_TOO_LARGE = 61,
    /* a part number of a schedule is above 11 */
    MOC_LINE_PART_TOO_LARGE = 62,

    /* A client handle */
    /* the client has no map */
    MOC_NO_MAP = 70,
    /* the client has a map already */
    MOC_CLIENT_IN_USE = 71,
    /* the number of clients is not 1 to 64; first: the number of clients */
    MOC_BAD_COUNT = 72,
    /* no further client can join the map */
    MOC_NO_CLIENT = 73,
    /* another client holds a part of the map; first: the part, from 0 to 11; second: the number of the client that holds it */
    MOC_BUSY = 74,

    /* A pointer. first: the number of the argument, from 0; of an overlap, of the later argument of the two */
    /* a pointer is not aligned for its type */
    MOC_MISALIGNED = 80,
    /* what the call writes overlaps another argument */
    MOC_OVERLAP = 81
};
/* End of the codes. */

/* ---- Version and messages */

/* The version of the library, such as "0.1.0". */
const char *moc_version(void);
/* The meaning of a code in English. Returns "unknown code" for other numbers. */
const char *moc_message(uint32_t code);

/* ---- Stores */

/* Opens an empty store at `out`, and returns true. Returns false and zeroes `out` if an allocation fails. Returns false and writes
   nothing if `out` is null or not aligned. */
bool moc_store_open(moc_store *out);
/* Closes a store with all its coverages, and zeroes it. Does nothing if it is zeroed, or if the pointer is null or not aligned. */
void moc_store_close(moc_store *store);

/* ---- Making coverages. Each function stores a coverage and returns its id as `first`. 0 is not an id, and no store uses an id twice. An
   id of another store gets MOC_NO_SUCH_SET, unless 65,534 stores or clients were opened between the two stores. For an error, `first` is
   UINT64_MAX, which is not an id, and `second` is what the code states of `first`. If a code has two numbers, `second` is
   `(uint32_t)first | second << 32` of them. MOC_MEMORY if an allocation fails. n cells or ranges, also those of a text, take O(n log n),
   or O(n) if they are ascending. A set operation is linear in the ranges of its operands. */

/* The empty coverage. */
MOC_CHECKED moc_result moc_empty(moc_store *store);
/* All pixels of the sky. */
MOC_CHECKED moc_result moc_full(moc_store *store);
/* The union of the ranges, which may be in any order, may overlap, and may be empty. MOC_RANGE_.. for the first invalid range. */
MOC_CHECKED moc_result moc_from_ranges(moc_store *store, const moc_range *ranges, size_t count);
/* The cells of an order with these nested indices, in any order. MOC_NO_SUCH_ORDER, then MOC_NO_SUCH_CELL. */
MOC_CHECKED moc_result moc_from_cells(moc_store *store, uint32_t order, const uint64_t *cells, size_t count);
/* The cells with these NUNIQ numbers, in any order. MOC_NOT_UNIQ. */
MOC_CHECKED moc_result moc_from_uniqs(moc_store *store, const uint64_t *uniqs, size_t count);

/* The coverage of a text, which need not end with a 0. `second` is the deepest order that the text names, or MOC_NO_ORDER; a list of NUNIQ
   numbers names none. MOC_ASCII_.., MOC_JSON_.. or MOC_UNIQ_.. for the first error. */
MOC_CHECKED moc_result moc_read_ascii(moc_store *store, const uint8_t *text, size_t length);
MOC_CHECKED moc_result moc_read_json(moc_store *store, const uint8_t *text, size_t length);
MOC_CHECKED moc_result moc_read_uniq(moc_store *store, const uint8_t *text, size_t length);

/* The union, the intersection, the difference and the symmetric difference of two coverages, which may be the same. MOC_NO_SUCH_SET for the
   first id without a coverage. */
MOC_CHECKED moc_result moc_union(moc_store *store, uint64_t a, uint64_t b);
MOC_CHECKED moc_result moc_intersection(moc_store *store, uint64_t a, uint64_t b);
MOC_CHECKED moc_result moc_difference(moc_store *store, uint64_t a, uint64_t b);
MOC_CHECKED moc_result moc_symmetric(moc_store *store, uint64_t a, uint64_t b);
/* The complement in the sky. MOC_NO_SUCH_SET. */
MOC_CHECKED moc_result moc_complement(moc_store *store, uint64_t a);
/* The coverage degraded to an order: all pixels of each cell of the order in which it has a pixel. MOC_NO_SUCH_SET, then
   MOC_NO_SUCH_ORDER. */
MOC_CHECKED moc_result moc_degrade(moc_store *store, uint64_t a, uint32_t order);

/* The coverage of an id of `from`, in another store `to`. The stores share its ranges, so that n ranges take O(n / 128). MOC_NO_SUCH_SET.
   */
MOC_CHECKED moc_result moc_share(const moc_store *from, uint64_t a, moc_store *to);

/* The union, the intersection, the difference and the symmetric difference of coverages of two stores, which may be the same store, in a
   new store. Each function opens the store at `out`, which has only the result, or zeroes `out` if it fails, unless the pointer is invalid.
   The locks of the two stores are held while the ranges are shared, and not during the operation. MOC_NO_SUCH_SET. */
MOC_CHECKED moc_result moc_open_union(const moc_store *first, uint64_t a, const moc_store *second, uint64_t b, moc_store *out);
MOC_CHECKED moc_result moc_open_intersection(const moc_store *first, uint64_t a, const moc_store *second, uint64_t b, moc_store *out);
MOC_CHECKED moc_result moc_open_difference(const moc_store *first, uint64_t a, const moc_store *second, uint64_t b, moc_store *out);
MOC_CHECKED moc_result moc_open_symmetric(const moc_store *first, uint64_t a, const moc_store *second, uint64_t b, moc_store *out);

/* Frees the coverage with an id, which is not used again. MOC_NO_SUCH_SET. */
moc_result moc_free(moc_store *store, uint64_t a);

/* ---- Queries. Each function returns its value as `first`, where yes is 1 and no is 0, and allocates nothing, except for `moc_pair_..`.
   MOC_NO_SUCH_SET for the first id without a coverage. To look up a pixel takes O(log n) for n ranges; any other query takes at most one
   pass over the ranges. */

/* The number of pixels of order 29 of a coverage, and of those that two coverages have in common. */
MOC_CHECKED moc_result moc_count(const moc_store *store, uint64_t a);
MOC_CHECKED moc_result moc_count_common(const moc_store *store, uint64_t a, uint64_t b);
/* The number of ranges of a coverage: those that `moc_ranges` writes. */
MOC_CHECKED moc_result moc_range_count(const moc_store *store, uint64_t a);
/* The least order at which the coverage is a union of cells; 0 for the empty coverage. */
MOC_CHECKED moc_result moc_deepest_order(const moc_store *store, uint64_t a);
/* Whether the coverage is empty. */
MOC_CHECKED moc_result moc_is_empty(const moc_store *store, uint64_t a);
/* Whether the coverage contains a pixel of order 29. It contains no number from MOC_PIXEL_COUNT on. */
MOC_CHECKED moc_result moc_contains(const moc_store *store, uint64_t a, uint64_t pixel);
/* Whether two coverages have a pixel in common; whether `a` contains every pixel of `b`; whether they are equal. */
MOC_CHECKED moc_result moc_meets(const moc_store *store, uint64_t a, uint64_t b);
MOC_CHECKED moc_result moc_covers(const moc_store *store, uint64_t a, uint64_t b);
MOC_CHECKED moc_result moc_same(const moc_store *store, uint64_t a, uint64_t b);

/* The four queries of two coverages, for coverages of two stores, which may be one store. They allocate a store. The locks of the two
   stores are held while the ranges are shared, and not during the query. MOC_MEMORY if an allocation fails. */
MOC_CHECKED moc_result moc_pair_count_common(const moc_store *first, uint64_t a, const moc_store *second, uint64_t b);
MOC_CHECKED moc_result moc_pair_meets(const moc_store *first, uint64_t a, const moc_store *second, uint64_t b);
MOC_CHECKED moc_result moc_pair_covers(const moc_store *first, uint64_t a, const moc_store *second, uint64_t b);
MOC_CHECKED moc_result moc_pair_same(const moc_store *first, uint64_t a, const moc_store *second, uint64_t b);

/* ---- Coverages as arrays. MOC_NO_SUCH_SET comes before the codes of each function. Linear in what is written. For pixels, O(log n) for
   each pixel and n ranges, and less if they are ascending. */

/* For each pixel of order 29, 1 if the coverage contains it and 0 if not, at the same position of `out`. Allocates nothing.
   MOC_LENGTHS_DIFFER if `length` is not `count`. */
MOC_CHECKED moc_result moc_contains_all(const moc_store *store, uint64_t a, const uint64_t *pixels, size_t count, uint8_t *out,
                                        size_t length);
/* The ranges of the coverage, ascending, none empty and none touching the next, to the front of `out`; `first` is their number. Allocates
   nothing. MOC_BUFFER_TOO_SHORT, with nothing written, if `length` is less. */
MOC_CHECKED moc_result moc_ranges(const moc_store *store, uint64_t a, moc_range *out, size_t length);
/* The NUNIQ numbers, ascending, of the cells of the coverage that are in no larger cell of it, to the front of `out`; `first` is their
   number. Allocates the cells, or returns MOC_MEMORY. One pass over the ranges for each order that can have cells, also if the buffer is
   too short. MOC_BUFFER_TOO_SHORT, with nothing written, if `length` is less. */
MOC_CHECKED moc_result moc_cells(const moc_store *store, uint64_t a, uint64_t *out, size_t length);
/* The numbers of these cells of each order, from order 0 to order 29, to the front of `out`; `first` is 30. Allocates nothing.
   MOC_BUFFER_TOO_SHORT, with nothing written, if `length` is less than 30. */
MOC_CHECKED moc_result moc_cell_count_by_order(const moc_store *store, uint64_t a, uint64_t *out, size_t length);

/* ---- Coverages as texts. Each function makes a text; `first` is its length. MOC_MEMORY if an allocation fails. One pass over the ranges
   for each order that can have cells, up to two more, and linear in the text. The store keeps a copy of its last text. */

/* The coverage in a text format, with a line feed at the end, or after each number of a list. `stated` is the order that the text
   states, or MOC_NO_ORDER; MOC 2.0 requires it if a coverage was made of deeper cells than it needs. MOC_NO_SUCH_SET, then
   MOC_NO_SUCH_ORDER, then MOC_TOO_COARSE. */
MOC_CHECKED moc_result moc_write_ascii(moc_store *store, uint64_t a, uint32_t stated, moc_text *text);
MOC_CHECKED moc_result moc_write_json(moc_store *store, uint64_t a, uint32_t stated, moc_text *text);
MOC_CHECKED moc_result moc_write_uniq(moc_store *store, uint64_t a, moc_text *text);
/* The statistics of the coverage, one per line, as `moc describe` prints them. `deepest` is the deepest order that its text named, or
   MOC_NO_ORDER. MOC_NO_SUCH_SET, then MOC_NO_SUCH_ORDER. */
MOC_CHECKED moc_result moc_describe(moc_store *store, uint64_t a, uint32_t deepest, moc_text *text);
/* A picture of the coverage in SVG, as `moc draw` makes it. MOC_NO_SUCH_SET. In addition, O(log n) for each cell of order 7 that the
   coverage meets. */
MOC_CHECKED moc_result moc_draw(moc_store *store, uint64_t a, moc_text *text);
/* Frees a text, and zeroes it. Does nothing if it is zeroed, or if the pointer is null or not aligned. */
void moc_text_free(moc_text *text);

/* ---- Numbers of cells, as whole arrays: the value for a number is at the same position. The functions need no store, allocate nothing,
   and take O(1) for each number. MOC_NO_SUCH_ORDER, then MOC_LENGTHS_DIFFER, then MOC_NO_SUCH_CELL or MOC_NOT_UNIQ; what was written is
   then meaningless. */

/* Ring indices of nested indices, and back. */
MOC_CHECKED moc_result moc_nest_to_ring(uint32_t order, const uint64_t *cells, size_t count, uint64_t *out, size_t length);
MOC_CHECKED moc_result moc_ring_to_nest(uint32_t order, const uint64_t *rings, size_t count, uint64_t *out, size_t length);
/* NUNIQ numbers of nested indices, and orders with nested indices of NUNIQ numbers. */
MOC_CHECKED moc_result moc_nest_to_uniq(uint32_t order, const uint64_t *cells, size_t count, uint64_t *out, size_t length);
MOC_CHECKED moc_result moc_uniq_to_nest(const uint64_t *uniqs, size_t count, uint8_t *orders, size_t order_length, uint64_t *cells,
                                        size_t cell_length);
/* The base pixel of a nested index, 0 to 11, and the position in it: x to the north-east and y to the north-west, both below 2^order. */
MOC_CHECKED moc_result moc_nest_to_face_xy(uint32_t order, const uint64_t *cells, size_t count, uint8_t *faces, size_t face_length,
                                           uint32_t *xs, size_t x_length, uint32_t *ys, size_t y_length);
/* The cells that touch a cell, in a corner or along a side: a row of eight for each cell, ascending, filled with UINT64_MAX. */
MOC_CHECKED moc_result moc_touching(uint32_t order, const uint64_t *cells, size_t count, uint64_t (*out)[8], size_t length);
/* The same cells by direction, in healpy's order: south-west, west, north-west, north, north-east, east, south-east and south, with
   UINT64_MAX if there is none. */
MOC_CHECKED moc_result moc_neighbours(uint32_t order, const uint64_t *cells, size_t count, uint64_t (*out)[8], size_t length);

/* ---- A map that threads share. It has twelve parts, one for each base pixel, which up to MOC_MAX_CLIENTS clients change and query at the
   same time. MOC_MEMORY if an allocation fails. To begin a map and to store its coverage takes O(n) for n ranges, and to join a map O(1).
   A line takes the time to read its operands, and at most one pass over the ranges of the parts for each command. A reply is linear in its
   text.

   A call that needs a part that another client holds waits until the timeout of its client. Then it fails with MOC_BUSY, and the map is
   unchanged; the call may be repeated. While it waits, other threads may use the client, and a signal that a handler catches does not end
   the wait. Calls of a map cannot deadlock. Nothing is guaranteed about fairness: a client may starve, and a call with MOC_NO_TIMEOUT may
   wait forever.

   Each call on a map is one atomic step, and sees all earlier calls of its client. Nothing is guaranteed about the order of calls of
   different clients, even if their threads signal each other. If the order matters, make both calls with one client, the second after the
   first has returned. */

/* Opens a client without a map at `out`, and returns true; or returns false, as `moc_store_open`. Its timeout is 0: its calls do not
   wait. */
bool moc_client_open(moc_client *out);
/* Closes a client, and zeroes it. Does nothing if it is zeroed, or if the pointer is null or not aligned. Another client can then join the
   map with its number. The map ends with its last client. */
void moc_client_close(moc_client *client);

/* Begins a map with the coverage of an id, which stays in the store, for 1 to MOC_MAX_CLIENTS clients. The client becomes one of them;
   `first` is its number, which is the number of clients less 1. MOC_CLIENT_IN_USE, then MOC_NO_SUCH_SET, then MOC_BAD_COUNT. */
MOC_CHECKED moc_result moc_map_begin(moc_client *client, const moc_store *store, uint64_t a, uint32_t clients);
/* Makes `other` a client of the map of `client`; `first` is its number, which no open client has. MOC_CLIENT_IN_USE of the other client,
   then MOC_NO_MAP, then MOC_NO_CLIENT if all clients of the map are open. */
MOC_CHECKED moc_result moc_map_join(moc_client *client, moc_client *other);
/* Sets for how many milliseconds later calls of a client wait for parts. 0: they do not wait. MOC_NO_TIMEOUT: they wait until the parts are
   free. A call that waits keeps its timeout. If another call of the map goes first because it has failed to get its parts, a call with a
   timeout leaves out up to sixteen tries, also before its first try. It sleeps for at least 20 microseconds instead of each, in addition to
   the timeout. Together these sleeps take about a millisecond on Linux. */
moc_result moc_map_busy_timeout(moc_client *client, uint32_t milliseconds);

/* Executes the commands of a line, separated by `;`, as `moc run` does: all of them in one atomic step, or none. The replies are those that
   `moc run` writes, with a line feed; `first` is their length. MOC_NO_MAP, then MOC_LINE_TOO_MANY_COMMANDS, then another MOC_LINE_.. for
   the first invalid command, then MOC_BUSY; the map is unchanged then. The line may end with one line feed, which is not part of it, and
   does not end with a 0. It has at most 16 commands, and no limit of length. After MOC_MEMORY the line may have been executed. */
MOC_CHECKED moc_result moc_map_execute(moc_client *client, const uint8_t *line, size_t length, moc_text *replies);
/* Executes a line without making its replies. After MOC_MEMORY the map is unchanged. */
MOC_CHECKED moc_result moc_map_apply(moc_client *client, const uint8_t *line, size_t length);
/* The replies to the last line that the client executed; empty before the first line. `first` is their length. If several threads use the
   client, the line may be that of another thread. */
MOC_CHECKED moc_result moc_map_answer(moc_client *client, moc_text *replies);
/* Commands without a line, on the cells of an order with these nested indices, in any order. Each is one atomic step, as a line of one
   command, and leaves the replies to the last line as they are. `first` is the number of pixels of order 29 that were added or removed;
   for a claim, the number of its pixels that the map had, which is 0 if the claim succeeded; for a count, the number of pixels that the map
   has in the cells; for `contains`, 1 if the map has all pixels of the cells, and 0 if not. MOC_NO_MAP, then MOC_NO_SUCH_ORDER, then
   MOC_NO_SUCH_CELL, then MOC_BUSY; the map is unchanged then. Usually O(log n) for one cell in a part of n ranges, and at most O(n). */
MOC_CHECKED moc_result moc_map_add(moc_client *client, uint32_t order, const uint64_t *cells, size_t count);
MOC_CHECKED moc_result moc_map_remove(moc_client *client, uint32_t order, const uint64_t *cells, size_t count);
MOC_CHECKED moc_result moc_map_claim(moc_client *client, uint32_t order, const uint64_t *cells, size_t count);
MOC_CHECKED moc_result moc_map_count(moc_client *client, uint32_t order, const uint64_t *cells, size_t count);
MOC_CHECKED moc_result moc_map_contains(moc_client *client, uint32_t order, const uint64_t *cells, size_t count);
/* The same commands on the coverage of an id. MOC_NO_MAP, then MOC_NO_SUCH_SET, then MOC_BUSY; the map is unchanged then. */
MOC_CHECKED moc_result moc_map_add_coverage(moc_client *client, const moc_store *store, uint64_t a);
MOC_CHECKED moc_result moc_map_remove_coverage(moc_client *client, const moc_store *store, uint64_t a);
MOC_CHECKED moc_result moc_map_claim_coverage(moc_client *client, const moc_store *store, uint64_t a);
MOC_CHECKED moc_result moc_map_count_coverage(moc_client *client, const moc_store *store, uint64_t a);
MOC_CHECKED moc_result moc_map_contains_coverage(moc_client *client, const moc_store *store, uint64_t a);
/* Stores a copy of the map's coverage under a new id, as the functions that make coverages. MOC_NO_MAP, then MOC_BUSY, with both numbers
   in `second`. */
MOC_CHECKED moc_result moc_map_coverage(moc_client *client, moc_store *store);

#ifdef __cplusplus
}
#endif

#endif
