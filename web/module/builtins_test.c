/* Compares the sums of builtins.c with those of gcc, on numbers of every length. Its last line is
 * 'builtins: N passed, M failed'.
 *
 *     gcc -std=gnu11 -O2 -Wall -Wextra -DBUILTINS_TEST -o builtins_test builtins_test.c builtins.c */
#include "heap.h"
#include <stdio.h>
#include <string.h>

typedef unsigned __int128 u128;
typedef __int128 i128;

int test_memcmp(const void *, const void *, u64);
i128 test___multi3(i128, i128);
i128 test___ashlti3(i128, int);
i128 test___lshrti3(i128, int);
i128 test___ashrti3(i128, int);
u128 test___udivti3(u128, u128);
u128 test___umodti3(u128, u128);
i128 test___divti3(i128, i128);
i128 test___modti3(i128, i128);

static u64 seed = 88172645463325252u;

static u64 chance(void) {
    seed ^= seed << 13;
    seed ^= seed >> 7;
    seed ^= seed << 17;
    return seed;
}

/* A number of up to 128 bits, often near a power of two. */
static u128 some(void) {
    u128 value = ((u128)chance() << 64 | chance()) >> chance() % 128;
    u64 kind = chance() % 8;
    return kind == 0 ? (u128)1 << chance() % 128 : kind == 1 ? ((u128)1 << chance() % 128) - 1 : kind == 2 ? -value : value;
}

int main(void) {
    u64 passed = 0, failed = 0;
    for (int n = 0; n < 3000000; n++) {
        u128 a = some(), b = some();
        if (b == 0) continue;
        i128 x = (i128)a, y = (i128)b;
        int overflows = y == -1 && a == (u128)1 << 127;
        int is_well = (u128)test___multi3(x, y) == a * b && test___udivti3(a, b) == a / b && test___umodti3(a, b) == a % b
            && (overflows || (test___divti3(x, y) == x / y && test___modti3(x, y) == x % y));
        int by = (int)(chance() % 128);
        is_well = is_well && (u128)test___ashlti3(x, by) == a << by && (u128)test___lshrti3(x, by) == a >> by
            && test___ashrti3(x, by) == x >> by;
        u8 first[40], second[40];
        for (int i = 0; i < 40; i++) first[i] = second[i] = (u8)(a >> i);
        second[chance() % 40] ^= (u8)b;
        int told = test_memcmp(first, second, 40), wanted = memcmp(first, second, 40);
        is_well = is_well && (told < 0) == (wanted < 0) && (told > 0) == (wanted > 0);
        if (is_well) passed++;
        else failed++;
    }
    printf("builtins: %lu passed, %lu failed\n", passed, failed);
    return failed != 0;
}
