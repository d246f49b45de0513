/* What clang may call in what it compiles: the four functions of memory, and those of sums in 128 bits. The first are
 * instructions of the machine (-mbulk-memory). The others are written over 64 bits; builtins_test.c compares them with
 * those of gcc. */
#include "heap.h"

typedef unsigned __int128 u128;
typedef __int128 i128;

#ifdef BUILTINS_TEST
#define NAMED(name) test_##name
#else
#define NAMED(name) name

void *memcpy(void *to, const void *from, u64 count) { return __builtin_memcpy(to, from, count); }
void *memmove(void *to, const void *from, u64 count) { return __builtin_memmove(to, from, count); }
void *memset(void *to, int value, u64 count) { return __builtin_memset(to, value, count); }
#endif

int NAMED(memcmp)(const void *first, const void *second, u64 count) {
    const u8 *a = first, *b = second;
    for (u64 i = 0; i < count; i++)
        if (a[i] != b[i]) return a[i] - b[i];
    return 0;
}

static u64 low_of(u128 value) { return (u64)value; }
static u64 high_of(u128 value) { return (u64)(value >> 64); }
static u128 joined(u64 high, u64 low) { return (u128)high << 64 | low; }

/* The whole product of two numbers of 64 bits, by their halves. */
static u128 product(u64 a, u64 b) {
    u64 a0 = (u32)a, a1 = a >> 32, b0 = (u32)b, b1 = b >> 32;
    u64 low = a0 * b0, left = a1 * b0 + (low >> 32), right = a0 * b1 + (u32)left;
    return joined(a1 * b1 + (left >> 32) + (right >> 32), right << 32 | (u32)low);
}

i128 NAMED(__multi3)(i128 a, i128 b) {
    u128 x = (u128)a, y = (u128)b, whole = product(low_of(x), low_of(y));
    return (i128)joined(high_of(whole) + low_of(x) * high_of(y) + high_of(x) * low_of(y), low_of(whole));
}

i128 NAMED(__ashlti3)(i128 a, int by) {
    u64 low = low_of((u128)a), high = high_of((u128)a);
    if (by == 0) return a;
    if (by >= 64) return (i128)joined(low << (by - 64), 0);
    return (i128)joined(high << by | low >> (64 - by), low << by);
}

i128 NAMED(__lshrti3)(i128 a, int by) {
    u64 low = low_of((u128)a), high = high_of((u128)a);
    if (by == 0) return a;
    if (by >= 64) return (i128)joined(0, high >> (by - 64));
    return (i128)joined(high >> by, high << (64 - by) | low >> by);
}

i128 NAMED(__ashrti3)(i128 a, int by) {
    u64 low = low_of((u128)a), high = high_of((u128)a), sign = (u64)((i64)high >> 63);
    if (by == 0) return a;
    if (by >= 64) return (i128)joined(sign, (u64)((i64)high >> (by - 64)));
    return (i128)joined((u64)((i64)high >> by), high << (64 - by) | low >> by);
}

/* The quotient of numbers without a sign, bit by bit from the first that can be set; the rest goes into *rest. */
static u128 divided(u128 a, u128 b, u128 *rest) {
    if ((high_of(a) | high_of(b)) == 0) {
        *rest = joined(0, low_of(a) % low_of(b));
        return joined(0, low_of(a) / low_of(b));
    }
    u128 quotient = 0;
    if (a >= b) {
        int zeros_a = high_of(a) ? __builtin_clzll(high_of(a)) : 64 + __builtin_clzll(low_of(a));
        int zeros_b = high_of(b) ? __builtin_clzll(high_of(b)) : 64 + __builtin_clzll(low_of(b));
        for (int shift = zeros_b - zeros_a; shift >= 0; shift--) {
            if (a < b << shift) continue;
            a -= b << shift;
            quotient |= (u128)1 << shift;
        }
    }
    *rest = a;
    return quotient;
}

static u128 size_of(i128 value) { return value < 0 ? -(u128)value : (u128)value; }

u128 NAMED(__udivti3)(u128 a, u128 b) {
    u128 rest;
    return divided(a, b, &rest);
}

u128 NAMED(__umodti3)(u128 a, u128 b) {
    u128 rest;
    divided(a, b, &rest);
    return rest;
}

i128 NAMED(__divti3)(i128 a, i128 b) {
    u128 rest, quotient = divided(size_of(a), size_of(b), &rest);
    return (i128)((a < 0) != (b < 0) ? -quotient : quotient);
}

i128 NAMED(__modti3)(i128 a, i128 b) {
    u128 rest;
    divided(size_of(a), size_of(b), &rest);
    return (i128)(a < 0 ? -rest : rest);
}
