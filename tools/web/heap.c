/*
 * The heap of the module: rattle_alloc, rattle_realloc and rattle_dealloc, which on Linux are malloc, realloc and free, and
 * what web/instance.js calls. The first free block that suffices is taken, and neighbouring free blocks are joined.
 */
typedef unsigned long u64;
typedef unsigned char u8;

enum { UNIT = 16, PAGE_BITS = 16, MIN_PAGES = 16 };

/* A block is whole units, the first of which is its header. */
typedef struct Block {
    struct Block *next;
    u64 units;
} Block;

/* What the toolchain's calls return: whether memory was there, and its address. */
typedef struct {
    u64 ok;
    void *at;
} Tried;

extern u8 __heap_base;

/* The free blocks in the order of their addresses, after a block of none. */
static Block head;
/* The end of what belongs to the heap, the bytes in use, and the maximum of these. */
static u64 top, used;
static u64 limit = 4UL << 30;

/* Returns a block to the free ones. */
static void release(Block *block) {
    Block *before = &head;
    while (before->next && before->next < block)
        before = before->next;
    block->next = before->next;
    if (block->next && block + block->units == block->next) {
        block->units += block->next->units;
        block->next = block->next->next;
    }
    if (before != &head && before + before->units == block) {
        before->units += block->units;
        before->next = block->next;
    } else
        before->next = block;
}

/* Takes these units from the end of the first free block that has as many; 0 if none has. */
static Block *take_free(u64 units) {
    for (Block *before = &head; before->next; before = before->next) {
        Block *block = before->next;
        if (block->units < units)
            continue;
        if (block->units == units) {
            before->next = block->next;
            return block;
        }
        block->units -= units;
        block += block->units;
        block->units = units;
        return block;
    }
    return 0;
}

/* Adds memory for at least these units to the free blocks; returns 0 if there is none. */
static int grow(u64 units) {
    if (!top)
        top = ((u64)&__heap_base + UNIT - 1) & ~(u64)(UNIT - 1);
    u64 end = (u64)__builtin_wasm_memory_size(0) << PAGE_BITS, size = units * UNIT;
    if (top + size > end) {
        u64 pages = (top + size - end + (1 << PAGE_BITS) - 1) >> PAGE_BITS;
        if (pages < MIN_PAGES)
            pages = MIN_PAGES;
        if (__builtin_wasm_memory_grow(0, pages) == (u64)-1)
            return 0;
        end = (u64)__builtin_wasm_memory_size(0) << PAGE_BITS;
    }
    Block *block = (Block *)top;
    block->units = (end - top) / UNIT;
    top = end;
    release(block);
    return 1;
}

static void *take(u64 size) {
    if (size > limit)
        return 0;
    u64 units = (size + UNIT - 1) / UNIT + 1;
    if (used + units * UNIT > limit)
        return 0;
    Block *block = take_free(units);
    if (!block && grow(units))
        block = take_free(units);
    if (!block)
        return 0;
    used += units * UNIT;
    return block + 1;
}

static void give(void *at) {
    if (!at)
        return;
    Block *block = (Block *)at - 1;
    used -= block->units * UNIT;
    release(block);
}

Tried rattle_alloc(u64 size, u64 alignment) {
    void *at = alignment > UNIT ? 0 : take(size ? size : 1);
    return (Tried){at != 0, at};
}

void rattle_dealloc(void *at) { give(at); }

Tried rattle_realloc(void *at, u64 kept, u64 size, u64 alignment) {
    if (alignment > UNIT)
        return (Tried){0, at};
    if (at && (((Block *)at)[-1].units - 1) * UNIT >= size)
        return (Tried){1, at};
    void *moved = take(size ? size : 1);
    if (!moved)
        return (Tried){0, at};
    __builtin_memcpy(moved, at, kept < size ? kept : size);
    give(at);
    return (Tried){1, moved};
}

#define EXPORT(name) __attribute__((export_name(#name)))

EXPORT(heap_take) void *heap_take(u64 size) { return take(size ? size : 1); }
EXPORT(heap_free) void heap_free(void *at) { give(at); }
EXPORT(heap_used) u64 heap_used(void) { return used; }
EXPORT(heap_set_limit) void heap_set_limit(u64 size) { limit = size; }
