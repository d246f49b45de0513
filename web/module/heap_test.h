/* An array in place of the module's memory, which refuses to grow past `test_limit` bytes. */
#include <sys/mman.h>

extern u8 *test_memory;
extern u64 test_end, test_limit;

static u64 memory_start(void) { return (u64)test_memory + 40; }
static u64 memory_end(void) { return (u64)test_memory + test_end; }
static int memory_grow(u64 pages) {
    if (pages << 16 > test_limit - test_end) return 0;
    test_end += pages << 16;
    return 1;
}
