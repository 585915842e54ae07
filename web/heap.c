// The heap of the library as a module of WebAssembly, which has no C library. The proved code calls `rattle_alloc`, `rattle_realloc` and
// `rattle_dealloc`. This file is tested, not proved. It guarantees what malloc, realloc and free guarantee: blocks that do not overlap, that are aligned
// to 16 bytes, and that keep their bytes. The module has one thread.
//
// The blocks follow each other from `__heap_base` on. A block is a header of 16 bytes, and its content. The free blocks are in lists by
// size, where the sizes of a list differ by less than an eighth (two-level segregated fit). Two free blocks are never neighbours.
typedef unsigned long size_t;
typedef unsigned char byte;

typedef struct Block {
    size_t previous_size;       // the size of the content of the block before this one, or 0 for the first block
    size_t size_and_flag;       // the size of the content, a multiple of 16, plus IN_USE if the block is not free
    struct Block *next_free;    // the next block of the list of a free block
    struct Block *previous_free; // the previous block of the list of a free block
} Block;

// The result of an allocation: whether it succeeded, and an address that is not null.
typedef struct {
    _Bool is_ok;
    void *address;
} Allocation;

#define HEADER_SIZE 16UL
#define ALIGNMENT 16UL
#define IN_USE 1UL
#define PAGE_SIZE 65536UL
// The memory grows by at least this number of pages.
#define MIN_GROWTH 16UL
// The largest size of an allocation, so that no sum of sizes overflows.
#define MAX_SIZE (1UL << 40)
#define LIST_COUNT 512
#define BITS 64
#define GROWTH_FAILED (~0UL)

extern byte __heap_base;
static byte no_block;
static Block *lists[LIST_COUNT];
// A bit for each list, which is set if the list has a block.
static size_t nonempty_lists[LIST_COUNT / BITS];
// The block after all others, which is in use and has no content. Null before the first allocation.
static Block *last_block;

static size_t size_of(const Block *block) { return block->size_and_flag & ~IN_USE; }
static _Bool is_free(const Block *block) { return !(block->size_and_flag & IN_USE); }
static void *content_of(Block *block) { return (byte *)block + HEADER_SIZE; }
static Block *block_of(void *content) { return (Block *)((byte *)content - HEADER_SIZE); }
static Block *next_of(Block *block) { return (Block *)((byte *)content_of(block) + size_of(block)); }
static Block *previous_of(Block *block) { return (Block *)((byte *)block - HEADER_SIZE - block->previous_size); }

// Returns the position of the highest bit of a number that is not 0.
static size_t highest_bit(size_t number) { return BITS - 1 - (size_t)__builtin_clzl(number); }

// Returns the number of the list of the blocks of a size: eight lists for each power of two.
static size_t list_of(size_t size) {
    size_t units = size / ALIGNMENT;
    if (units < 8)
        return units;
    size_t top = highest_bit(units);
    return (top - 2) * 8 + ((units >> (top - 3)) & 7);
}

// Returns the number of the first list whose blocks all have at least a size.
static size_t first_list_for(size_t size) {
    size_t units = size / ALIGNMENT;
    if (units >= 8)
        size += ((1UL << (highest_bit(units) - 3)) - 1) * ALIGNMENT;
    return list_of(size);
}

static void insert_free(Block *block) {
    size_t list = list_of(size_of(block));
    block->next_free = lists[list];
    block->previous_free = 0;
    if (block->next_free)
        block->next_free->previous_free = block;
    lists[list] = block;
    nonempty_lists[list / BITS] |= 1UL << (list % BITS);
}

static void remove_free(Block *block) {
    size_t list = list_of(size_of(block));
    if (block->next_free)
        block->next_free->previous_free = block->previous_free;
    if (block->previous_free) {
        block->previous_free->next_free = block->next_free;
        return;
    }
    lists[list] = block->next_free;
    if (!lists[list])
        nonempty_lists[list / BITS] &= ~(1UL << (list % BITS));
}

// Frees a block, and merges it with free neighbours.
static void release(Block *block) {
    block->size_and_flag = size_of(block);
    Block *next = next_of(block);
    if (is_free(next)) {
        remove_free(next);
        block->size_and_flag += HEADER_SIZE + size_of(next);
    }
    if (block->previous_size && is_free(previous_of(block))) {
        Block *previous = previous_of(block);
        remove_free(previous);
        previous->size_and_flag += HEADER_SIZE + size_of(block);
        block = previous;
    }
    next_of(block)->previous_size = size_of(block);
    insert_free(block);
}

// Makes a block in use of memory, with a size of its content, and a last block after it. The memory has space for both headers.
static void append_block(Block *block, size_t size) {
    block->size_and_flag = size | IN_USE;
    last_block = next_of(block);
    last_block->previous_size = size;
    last_block->size_and_flag = IN_USE;
}

// Frees the content of a block in use beyond a size, if it has space for a block.
static void shrink(Block *block, size_t size) {
    size_t rest = size_of(block) - size;
    if (rest < HEADER_SIZE + ALIGNMENT)
        return;
    block->size_and_flag = size | IN_USE;
    Block *other = next_of(block);
    other->previous_size = size;
    other->size_and_flag = (rest - HEADER_SIZE) | IN_USE;
    next_of(other)->previous_size = rest - HEADER_SIZE;
    release(other);
}

// Makes a free block of the memory that the module begins with. Returns whether there is enough memory for one.
static _Bool use_first_memory(void) {
    byte *start = (byte *)(((size_t)&__heap_base + ALIGNMENT - 1) & ~(ALIGNMENT - 1));
    byte *end = (byte *)(__builtin_wasm_memory_size(0) * PAGE_SIZE);
    if (end < start + 4 * HEADER_SIZE) {
        if (__builtin_wasm_memory_grow(0, 1) == GROWTH_FAILED)
            return 0;
        end = (byte *)(__builtin_wasm_memory_size(0) * PAGE_SIZE);
    }
    Block *first = (Block *)start;
    first->previous_size = 0;
    append_block(first, (size_t)(end - start) - 2 * HEADER_SIZE);
    release(first);
    return 1;
}

// Grows the memory, so that a block of a size is free. Returns whether this succeeds.
static _Bool grow(size_t size) {
    size_t least = (size + size / 8 + 4 * HEADER_SIZE + PAGE_SIZE - 1) / PAGE_SIZE, pages = least < MIN_GROWTH ? MIN_GROWTH : least;
    size_t old_pages = __builtin_wasm_memory_grow(0, pages);
    if (old_pages == GROWTH_FAILED && pages > least) {
        pages = least;
        old_pages = __builtin_wasm_memory_grow(0, pages);
    }
    // If other code has grown the memory, it owns the pages between.
    if (old_pages == GROWTH_FAILED || (byte *)(old_pages * PAGE_SIZE) != (byte *)content_of(last_block))
        return 0;
    Block *block = last_block;
    append_block(block, pages * PAGE_SIZE - HEADER_SIZE);
    release(block);
    return 1;
}

// Returns a free block of at least a size, or null.
static Block *find_free(size_t size) {
    size_t list = first_list_for(size), word = list / BITS, bits = nonempty_lists[word] & (~0UL << (list % BITS));
    while (!bits) {
        if (++word == LIST_COUNT / BITS)
            return 0;
        bits = nonempty_lists[word];
    }
    return lists[word * BITS + (size_t)__builtin_ctzl(bits)];
}

// Returns the size of the content of a block for a number of bytes.
static size_t rounded_up(size_t bytes) { return bytes < ALIGNMENT ? ALIGNMENT : (bytes + ALIGNMENT - 1) & ~(ALIGNMENT - 1); }

// Returns the content of a new block, or null.
static void *allocate(size_t bytes) {
    if (bytes > MAX_SIZE || (!last_block && !use_first_memory()))
        return 0;
    size_t size = rounded_up(bytes);
    Block *block = find_free(size);
    if (!block && grow(size))
        block = find_free(size);
    if (!block)
        return 0;
    remove_free(block);
    block->size_and_flag |= IN_USE;
    shrink(block, size);
    return content_of(block);
}

static void deallocate(void *content) {
    if (content)
        release(block_of(content));
}

// Adds the free block after a block in use to it, if both together have at least a size.
static void extend(Block *block, size_t size) {
    Block *next = next_of(block);
    if (size_of(block) >= size || !is_free(next) || size_of(block) + HEADER_SIZE + size_of(next) < size)
        return;
    remove_free(next);
    block->size_and_flag += HEADER_SIZE + size_of(next);
    next_of(block)->previous_size = size_of(block);
}

// Returns the content of a block with another size and the same bytes, or null. If it returns null, the block is unchanged.
static void *reallocate(void *content, size_t bytes) {
    if (!content)
        return allocate(bytes);
    if (bytes > MAX_SIZE)
        return 0;
    size_t size = rounded_up(bytes);
    Block *block = block_of(content);
    extend(block, size);
    if (size_of(block) >= size) {
        shrink(block, size);
        return content;
    }
    void *copy = allocate(bytes);
    if (!copy)
        return 0;
    __builtin_memcpy(copy, content, size_of(block));
    deallocate(content);
    return copy;
}

static Allocation result_of(void *content) { return (Allocation){content != 0, content ? content : &no_block}; }

// The functions that the proved code calls. An alignment above 16 fails. If the size is 0, the block has the size of the alignment.
Allocation rattle_alloc(size_t bytes, size_t alignment) {
    return result_of(alignment > ALIGNMENT ? 0 : allocate(bytes ? bytes : alignment));
}

Allocation rattle_realloc(void *content, size_t kept, size_t bytes, size_t alignment) {
    (void)kept;
    return result_of(alignment > ALIGNMENT ? 0 : reallocate(content, bytes ? bytes : alignment));
}

void rattle_dealloc(void *content) { deallocate(content); }

// The functions that the page calls for the arguments that it passes. `page_alloc` returns null if the memory cannot grow.
__attribute__((export_name("page_alloc"))) void *page_alloc(size_t bytes) { return allocate(bytes); }
__attribute__((export_name("page_free"))) void page_free(void *content) { deallocate(content); }
