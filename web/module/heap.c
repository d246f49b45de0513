/* The heap of the module: rattle_alloc, rattle_realloc and rattle_dealloc, which glue.ll hands on, and the exports
 * with which a page takes and gives back room for what it passes.
 *
 * Memory is cut into units of 4,096 bytes. A span is some units side by side, with a header of 16 bytes; free spans
 * stand in a list in the order of their addresses, and two that touch become one. A block of more than GREATEST_SMALL
 * bytes is a span of its own, which is given back whole, and grows where it lies if what follows is free. A smaller
 * block has one of 40 sizes, quarters between powers of two, and is cut from a span of 64 KiB; given back, it is kept
 * for the next of its size. Null is answered where the machine refuses memory, and nothing has changed then.
 *
 * With HEAP_TEST the memory is an array (heap_test.c). */
#include "heap.h"

enum { UNIT = 4096, HEADER = 16, GREATEST_SMALL = 16384, SIZES = 44, CUT = 65536 };

/* What stands in front of each block that is in use, and of each span that is free. `size` is that of a span in bytes,
 * header included, or for a small block the number of its size, which is below SIZES. */
typedef struct header {
    u64 size;
    struct header *next;
} header;

#ifdef HEAP_TEST
#include "heap_test.h"
#else
extern u8 __heap_base;
static u64 memory_start(void) { return (u64)&__heap_base; }
static u64 memory_end(void) { return __builtin_wasm_memory_size(0) << 16; }
static int memory_grow(u64 pages) { return __builtin_wasm_memory_grow(0, pages) != (u64)-1; }
#endif

/* Free spans by address; free small blocks by size; what is left of the span that small blocks are cut from. */
static header *spans;
static header *kept[SIZES];
static u64 cut_at, cut_end;
/* Where spans end; memory beyond it was never used. */
static u64 top;

/* The greatest request: more than any machine has, and far from where a sum would wrap. */
static const u64 GREATEST = (u64)1 << 46;

static u64 rounded(u64 bytes, u64 to) { return (bytes + to - 1) & ~(to - 1); }

/* The number of the least size that holds so many bytes: 16, 32, 48, then 64, 80, 96, 112, 128, 160, 192, .. */
static u64 number_of(u64 bytes) {
    if (bytes <= 64) return bytes == 0 ? 0 : (bytes - 1) >> 4;
    u64 power = 63 - (u64)__builtin_clzll(bytes - 1);
    return ((power - 6) << 2) + 4 + ((bytes - 1) >> (power - 2) & 3);
}

static u64 size_of(u64 number) {
    if (number < 4) return (number + 1) << 4;
    u64 power = ((number - 4) >> 2) + 6;
    return ((u64)1 << power) + (((number & 3) + 1) << (power - 2));
}

/* Moves the top so far up, growing memory where it ends before; false where that is refused. */
static int raise_top(u64 bytes) {
    if (top == 0) top = rounded(memory_start(), UNIT);
    u64 end = memory_end();
    if (bytes > end - top || end < top) {
        u64 pages = (top + bytes - end + 65535) >> 16;
        /* An eighth more than is needed, that memory grows seldom; just what is needed where that much is refused. */
        u64 spare = (end - memory_start()) >> 19;
        if (!(spare > pages && memory_grow(spare)) && !memory_grow(pages)) return 0;
    }
    top += bytes;
    return 1;
}

/* Takes a span of so many bytes, a multiple of UNIT: the first free one that is long enough, else from the top. */
static header *take_span(u64 bytes) {
    header **at = &spans;
    for (header *span = spans; span; at = &span->next, span = span->next) {
        if (span->size < bytes) continue;
        if (span->size > bytes) {
            header *rest = (header *)((u64)span + bytes);
            rest->size = span->size - bytes;
            rest->next = span->next;
            *at = rest;
        } else {
            *at = span->next;
        }
        span->size = bytes;
        return span;
    }
    if (!raise_top(bytes)) return 0;
    header *span = (header *)(top - bytes);
    span->size = bytes;
    return span;
}

/* Gives a span back: to the top where it touches it, else to the list, joined with its neighbours. */
static void give_span(header *span) {
    header *before = 0, *behind = spans;
    while (behind && behind < span) {
        before = behind;
        behind = behind->next;
    }
    if (behind && (u64)span + span->size == (u64)behind) {
        span->size += behind->size;
        behind = behind->next;
    }
    span->next = behind;
    if (before && (u64)before + before->size == (u64)span) {
        before->size += span->size;
        before->next = behind;
        span = before;
    } else if (before) {
        before->next = span;
    } else {
        spans = span;
    }
    if ((u64)span + span->size != top) return;
    top = (u64)span;
    header **at = &spans;
    while (*at != span) at = &(*at)->next;
    *at = 0;
}

/* Makes a span longer where it lies, if what follows is free or the top. */
static int widen_span(header *span, u64 bytes) {
    u64 more = bytes - span->size, end = (u64)span + span->size;
    if (end == top) {
        if (!raise_top(more)) return 0;
        span->size = bytes;
        return 1;
    }
    header **at = &spans;
    while (*at && (u64)*at < end) at = &(*at)->next;
    header *behind = *at;
    if ((u64)behind != end || behind->size < more) return 0;
    if (behind->size == more) {
        *at = behind->next;
    } else {
        header *rest = (header *)(end + more), left = *behind;
        rest->size = left.size - more;
        rest->next = left.next;
        *at = rest;
    }
    span->size = bytes;
    return 1;
}

static void *take_small(u64 number) {
    header *block = kept[number];
    if (block) {
        kept[number] = block->next;
    } else {
        u64 bytes = HEADER + size_of(number);
        if (cut_end - cut_at < bytes) {
            header *span = take_span(CUT);
            if (!span) return 0;
            /* What is left of the one before is lost: less than a block. */
            cut_at = (u64)span;
            cut_end = cut_at + CUT;
        }
        block = (header *)cut_at;
        cut_at += bytes;
    }
    block->size = number;
    return (u8 *)block + HEADER;
}

void *heap_alloc(u64 bytes) {
    if (bytes > GREATEST) return 0;
    if (bytes <= GREATEST_SMALL) return take_small(number_of(bytes));
    header *span = take_span(rounded(bytes + HEADER, UNIT));
    return span ? (u8 *)span + HEADER : 0;
}

void heap_free(void *given) {
    if (!given) return;
    header *block = (header *)((u8 *)given - HEADER);
    if (block->size >= SIZES) {
        give_span(block);
        return;
    }
    block->next = kept[block->size];
    kept[block->size] = block;
}

void *heap_realloc(void *given, u64 bytes) {
    if (bytes > GREATEST) return 0;
    header *block = (header *)((u8 *)given - HEADER);
    u64 room = block->size < SIZES ? size_of(block->size) : block->size - HEADER;
    if (bytes <= room) {
        u64 least = rounded(bytes + HEADER, UNIT);
        if (block->size >= SIZES && bytes > GREATEST_SMALL && least < block->size) {
            header *rest = (header *)((u8 *)block + least);
            rest->size = block->size - least;
            block->size = least;
            give_span(rest);
        }
        return given;
    }
    if (block->size >= SIZES && widen_span(block, rounded(bytes + HEADER, UNIT))) return given;
    void *other = heap_alloc(bytes);
    if (!other) return 0;
    __builtin_memcpy(other, given, room);
    heap_free(given);
    return other;
}
