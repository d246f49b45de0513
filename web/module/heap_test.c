/* Tries the heap by random calls, each block filled with a pattern of its own that has to be there when it is
 * given back; then with memory that ends, and then that all which was given back can be taken again. Its last line is
 * 'heap: N passed, M failed'.
 *
 *     gcc -std=gnu11 -O2 -Wall -Wextra -DHEAP_TEST -o heap_test heap_test.c heap.c */
#include "heap.h"
#include <stdio.h>
#include <stdlib.h>
#include <string.h>
#include <sys/mman.h>

u8 *test_memory;
u64 test_end = 1 << 17, test_limit;

enum { BLOCKS = 4000 };
static const u64 WHOLE = (u64)1 << 32;

static struct { u8 *at; u64 bytes; u8 pattern; } blocks[BLOCKS];
static u64 seed = 88172645463325252u, wrong, passed, failed;

static u64 chance(u64 below) {
    seed ^= seed << 13;
    seed ^= seed >> 7;
    seed ^= seed << 17;
    return seed % below;
}

/* Mostly small, now and then some hundred kilobytes. */
static u64 some_size(void) {
    u64 kind = chance(20);
    return kind < 12 ? chance(200) : kind < 17 ? chance(20000) : kind < 19 ? chance(300000) : chance(3000000);
}

static void check(const char *name, int is_well) {
    if (is_well) passed++;
    else failed++, printf("heap: %s\n", name);
}

static void look(u64 k, u64 bytes) {
    for (u64 i = 0; i < bytes; i++) wrong += blocks[k].at[i] != blocks[k].pattern;
}

static void fill(u64 k, u8 *at, u64 bytes) {
    blocks[k].at = at;
    blocks[k].bytes = bytes;
    blocks[k].pattern = (u8)chance(256);
    memset(at, blocks[k].pattern, bytes);
    wrong += (u64)at & 15;
    wrong += at < test_memory + 40 || at + bytes > test_memory + test_end;
}

static void give(u64 k) {
    look(k, blocks[k].bytes);
    heap_free(blocks[k].at);
    blocks[k].at = 0;
}

static u64 random_calls(u64 count) {
    u64 refused = 0;
    for (u64 n = 0; n < count; n++) {
        u64 k = chance(BLOCKS), bytes = some_size();
        if (!blocks[k].at) {
            u8 *at = heap_alloc(bytes);
            if (at) fill(k, at, bytes);
            else refused++;
        } else if (chance(3) == 0) {
            u8 *at = heap_realloc(blocks[k].at, bytes);
            if (at) {
                blocks[k].at = at;
                look(k, bytes < blocks[k].bytes ? bytes : blocks[k].bytes);
                fill(k, at, bytes);
            } else {
                refused++;
            }
        } else {
            give(k);
        }
    }
    return refused;
}

static void give_all(void) {
    for (u64 k = 0; k < BLOCKS; k++)
        if (blocks[k].at) give(k);
}

int main(void) {
    test_memory = mmap(0, WHOLE, PROT_READ | PROT_WRITE, MAP_PRIVATE | MAP_ANONYMOUS | MAP_NORESERVE, -1, 0);
    if (test_memory == MAP_FAILED) return printf("heap: no memory to try it in\n"), 2;
    test_limit = WHOLE;
    check("calls that nothing refuses", random_calls(60000) == 0);
    give_all();
    u64 used = test_end;
    check("the same calls again take little more", random_calls(60000) == 0 && test_end < used + used / 4);
    give_all();
    check("each block kept its bytes, and stands on 16", wrong == 0);

    test_limit = test_end;
    void *held[1000] = { 0 };
    u64 count = 0;
    while (count < 1000 && (held[count] = heap_alloc(1 << 20))) count++;
    for (u64 k = 0; k < 50 && k < count; k++) heap_free(held[k]), held[k] = 0;
    u64 refused = random_calls(60000);
    u8 *most = heap_alloc((u64)1 << 31);
    check("memory that ends is told", count < 1000 && refused > 1000 && most == 0 && heap_alloc((u64)1 << 62) == 0 && heap_alloc(~(u64)0) == 0);
    check("nothing was lost meanwhile", wrong == 0);
    give_all();
    for (u64 k = 0; k < count; k++) heap_free(held[k]);
    printf("heap: %lu refused, %lu MB\n", refused, test_end >> 20);

    /* A list that grows by doubling, as a Vec does: it is to stay where it is, and take no more than itself. */
    u64 before = test_end, grown = 32768, moves = 0;
    test_limit = WHOLE;
    u8 *list = heap_alloc(grown);
    for (; grown < (u64)1 << 30; grown *= 2) {
        u8 *at = heap_realloc(list, 2 * grown);
        moves += at != list && grown > before;
        list = at;
    }
    check("a list that grows last of all stays where it is", moves <= 1);
    check("and takes no more than itself", test_end < before + grown + grown / 4);
    u8 *other = heap_alloc(5000000);
    heap_free(list);
    list = heap_alloc(grown - 5000);
    check("a large block that was given back is taken again", list && test_end < before + grown + grown / 4);
    heap_free(other);
    heap_free(list);
    printf("heap: %lu passed, %lu failed\n", passed, failed);
    return failed != 0;
}
