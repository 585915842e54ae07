// Tests heap.c on Linux with random calls. The memory of the module is an arena of pages, which can grow up to a limit.
//
// usage: heap_test SEED STEPS LIMIT
//
// LIMIT is the maximal number of pages. Each block is filled with a byte that a table has, and must keep it. After some steps, and at the
// end, the blocks must fill the memory, the sizes before each block must be right, no two free blocks may be neighbours, and the lists must
// have exactly the free blocks. If an allocation fails, no free block may be surely large enough, and the memory must be near its limit. At
// the end all blocks are freed, and one free block must be left.
#include <stdint.h>
#include <stdio.h>
#include <stdlib.h>
#include <string.h>
#include <sys/mman.h>

#define ARENA_SIZE (1UL << 31)
#define WASM_PAGE 65536UL
#define FIRST_PAGES 3
// The first byte that the heap may use, which is not aligned.
#define HEAP_START 1001

static unsigned char *arena;
static unsigned long page_count = FIRST_PAGES, page_limit;

static unsigned long memory_size(void) { return (uintptr_t)arena / WASM_PAGE + page_count; }

static unsigned long memory_grow(unsigned long pages) {
    if (page_count + pages > page_limit)
        return ~0UL;
    page_count += pages;
    return memory_size() - pages;
}

#define __builtin_wasm_memory_size(memory) memory_size()
#define __builtin_wasm_memory_grow(memory, pages) memory_grow(pages)
#define __heap_base (arena[HEAP_START])
#define export_name(name) unused
// heap.c, without its declaration of __heap_base.
#include "heap_source.c"

enum { SLOT_COUNT = 3000, CHECK_INTERVAL = 20000 };

typedef struct {
    unsigned char *content;
    unsigned long size;
    unsigned char fill;
} Slot;

static Slot slots[SLOT_COUNT];
static unsigned long state;

static unsigned long random_below(unsigned long bound) {
    state = state * 6364136223846793005UL + 1442695040888963407UL;
    return (state >> 33) % bound;
}

static unsigned long random_size(void) {
    unsigned long kind = random_below(1000);
    return kind < 700 ? random_below(200) : kind < 950 ? random_below(20000) : kind < 995 ? random_below(2000000)
        : kind < 998 ? 0 : (1UL << 40) + random_below(2);
}

static void require(int holds, const char *statement) {
    if (!holds) {
        printf("does not hold: %s\n", statement);
        exit(1);
    }
}

static void check_slot(const Slot *slot) {
    require((uintptr_t)slot->content % 16 == 0, "a block is aligned");
    require(slot->content >= &__heap_base && slot->content + slot->size <= arena + page_count * WASM_PAGE, "a block is in the memory");
    for (unsigned long at = 0; at < slot->size; at++)
        require(slot->content[at] == slot->fill, "a block keeps its bytes");
}

// Returns the number of blocks in all lists, and checks that each is free and in the right list.
static unsigned long listed_blocks(void) {
    unsigned long count = 0;
    for (unsigned long list = 0; list < LIST_COUNT; list++) {
        require((nonempty_lists[list / BITS] >> (list % BITS) & 1) == (lists[list] != 0), "the bit of a list is right");
        for (Block *block = lists[list]; block; block = block->next_free, count++)
            require(is_free(block) && list_of(size_of(block)) == list, "a block of a list is free and has its size");
    }
    return count;
}

// Checks all blocks. Returns the size of the largest free one.
static unsigned long check_blocks(void) {
    unsigned long free_count = 0, largest = 0;
    int was_free = 0;
    Block *block = (Block *)(((uintptr_t)&__heap_base + 15) & ~15UL);
    for (; block != last_block; block = next_of(block)) {
        require(next_of(block)->previous_size == size_of(block), "the size before a block is right");
        require(!(is_free(block) && was_free), "no two free blocks are neighbours");
        was_free = is_free(block);
        free_count += is_free(block);
        if (is_free(block) && size_of(block) > largest)
            largest = size_of(block);
    }
    require((unsigned char *)content_of(block) == arena + page_count * WASM_PAGE, "the blocks fill the memory");
    require(listed_blocks() == free_count, "the lists have the free blocks");
    return largest;
}

// Checks that an allocation failed for a reason.
static void check_failure(Allocation result, unsigned long size) {
    require(result.address != 0, "the address of a failed allocation is not null");
    if (size > MAX_SIZE)
        return;
    require(check_blocks() < size + size / 8 + 16, "an allocation fails only if no block is large enough");
    require(page_count + (size + size / 8) / WASM_PAGE + 2 > page_limit, "an allocation fails only if the memory cannot grow");
}

static void fill(Slot *slot, unsigned long size) {
    memset(slot->content, slot->fill, size);
    slot->size = size;
}

static int step_of(Slot *slot, unsigned long number) {
    unsigned long size = random_size();
    if (!slot->content) {
        Allocation result = rattle_alloc(size, 1UL << random_below(5));
        if (!result.is_ok)
            return check_failure(result, size), 0;
        *slot = (Slot){result.address, 0, (unsigned char)number};
        fill(slot, size);
        return 1;
    }
    check_slot(slot);
    if (random_below(2)) {
        rattle_dealloc(slot->content);
        slot->content = 0;
        return 1;
    }
    Allocation result = rattle_realloc(slot->content, slot->size < size ? slot->size : size, size, 16);
    if (!result.is_ok) {
        check_slot(slot);
        return check_failure(result, size), 0;
    }
    slot->content = result.address;
    if (slot->size > size)
        slot->size = size;
    check_slot(slot);
    fill(slot, size);
    return 1;
}

int main(int count, char **arguments) {
    require(count == 4, "there are three arguments");
    state = strtoul(arguments[1], 0, 10);
    unsigned long steps = strtoul(arguments[2], 0, 10), failures = 0;
    page_limit = strtoul(arguments[3], 0, 10);
    arena = mmap(0, ARENA_SIZE, PROT_READ | PROT_WRITE, MAP_PRIVATE | MAP_ANONYMOUS | MAP_NORESERVE, -1, 0);
    require(arena != MAP_FAILED, "the arena is mapped");
    arena = (unsigned char *)(((uintptr_t)arena + WASM_PAGE - 1) & ~(WASM_PAGE - 1));
    require(!rattle_alloc(16, 32).is_ok && !rattle_realloc(0, 0, 16, 32).is_ok, "an alignment above 16 fails");
    rattle_dealloc(0);
    for (unsigned long number = 0; number < steps; number++) {
        failures += !step_of(&slots[random_below(SLOT_COUNT)], number);
        if (number % CHECK_INTERVAL == CHECK_INTERVAL - 1)
            check_blocks();
    }
    for (int number = 0; number < SLOT_COUNT; number++)
        if (slots[number].content) {
            check_slot(&slots[number]);
            page_free(slots[number].content);
        }
    unsigned long left = check_blocks();
    require(listed_blocks() == 1, "one free block is left");
    void *all = page_alloc(left - left / 8);
    require(all != 0, "the memory can be allocated again");
    printf("%lu steps, %lu failed, %lu pages\n", steps, failures, page_count);
    return 0;
}
