/* Memory: blocks of a power of two, or of one and a half of it, which are kept in a list of their size once they are free. */
#include "shim.h"

enum { PAGE = 65536, LEAST_PAGES = 64, HEAD = 16, LEAST = 16, SIZES = 128 };

extern u8 __heap_base;

/* Stands in front of a block. */
struct head {
    u64 size_class;
    u64 size;
};

static u64 top;
static void *kept[SIZES];

/* The class of the smallest block with so much room, and how much it has. */
static struct head fitting(u64 wanted) {
    u64 least = wanted < LEAST ? LEAST : wanted;
    u64 power = 63 - __builtin_clzl(least);
    struct head found = {power * 2, 1ul << power};
    if (found.size < least) {
        u64 half = found.size / 2;
        found.size_class += found.size + half >= least ? 1 : 2;
        found.size += found.size + half >= least ? half : found.size;
    }
    found.size = (found.size + LEAST - 1) & ~(u64)(LEAST - 1);
    return found;
}

/* Whether memory reaches that far; more is asked for where it doesn't. */
static i32 reaches(u64 end) {
    u64 have = __builtin_wasm_memory_size(0) * (u64)PAGE;
    if (end <= have)
        return 1;
    u64 pages = (end - have + PAGE - 1) / PAGE;
    return __builtin_wasm_memory_grow(0, pages < LEAST_PAGES ? LEAST_PAGES : pages) != (u64)-1;
}

void *malloc(u64 wanted) {
    struct head head = fitting(wanted);
    if (kept[head.size_class]) {
        void *block = kept[head.size_class];
        kept[head.size_class] = *(void **)block;
        return block;
    }
    if (!top)
        top = ((u64)&__heap_base + HEAD - 1) & ~(u64)(HEAD - 1);
    if (head.size > ~top - HEAD || !reaches(top + HEAD + head.size))
        return 0;
    *(struct head *)top = head;
    void *block = (void *)(top + HEAD);
    top += HEAD + head.size;
    return block;
}

void free(void *block) {
    if (!block)
        return;
    u64 size_class = ((struct head *)block - 1)->size_class;
    *(void **)block = kept[size_class];
    kept[size_class] = block;
}

void *memcpy(void *to, const void *from, u64 count) {
    u8 *a = to;
    const u8 *b = from;
    for (u64 i = 0; i < count; i++)
        a[i] = b[i];
    return to;
}

void *memmove(void *to, const void *from, u64 count) {
    u8 *a = to;
    const u8 *b = from;
    if (a < b)
        return memcpy(to, from, count);
    for (u64 i = count; i > 0; i--)
        a[i - 1] = b[i - 1];
    return to;
}

void *memset(void *to, i32 value, u64 count) {
    u8 *a = to;
    for (u64 i = 0; i < count; i++)
        a[i] = value;
    return to;
}

i32 memcmp(const void *one, const void *other, u64 count) {
    const u8 *a = one, *b = other;
    for (u64 i = 0; i < count; i++)
        if (a[i] != b[i])
            return a[i] - b[i];
    return 0;
}

u64 strlen(const char *text) {
    u64 count = 0;
    while (text[count])
        count++;
    return count;
}

/* What the program asks for: a block, or why there is none. */
struct tried {
    u64 done;
    u64 block;
};

void rattle_alloc(struct tried *out, u64 size, u64 alignment) {
    void *block = malloc(size ? size : alignment);
    out->done = block != 0;
    out->block = block ? (u64)block : alignment;
}

void rattle_realloc(struct tried *out, void *block, u64 kept_size, u64 size, u64 alignment) {
    u64 wanted = size ? size : kept_size, have = ((struct head *)block - 1)->size;
    void *moved = wanted <= have ? block : malloc(wanted);
    out->done = moved != 0;
    out->block = moved ? (u64)moved : alignment;
    if (moved && moved != block) {
        memcpy(moved, block, have);
        free(block);
    }
}

void rattle_dealloc(void *block) { free(block); }
