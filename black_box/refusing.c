/* An allocator that counts a process's requests for memory, and the bytes that they ask for, and refuses one of them.
 *
 * It is preloaded. REFUSED_REQUEST is the number of the request that is refused, from 1 on; without it, or past the last
 * one, none is. REQUESTS_TO names a file that gets the count of all requests and the sum of their sizes when the process
 * ends; a block that is made larger counts its new size once more. */

#define _GNU_SOURCE
#include <errno.h>
#include <fcntl.h>
#include <stdatomic.h>
#include <stddef.h>
#include <stdio.h>
#include <stdlib.h>
#include <unistd.h>

/* The C library's own, by which all other requests are met. */
extern void *__libc_malloc(size_t size);
extern void *__libc_calloc(size_t count, size_t size);
extern void *__libc_realloc(void *block, size_t size);
extern void *__libc_memalign(size_t alignment, size_t size);

static atomic_ulong requests;
static atomic_ulong bytes;
static unsigned long refused;

__attribute__((constructor)) static void begin(void) {
  const char *text = getenv("REFUSED_REQUEST");
  refused = text == NULL ? 0 : strtoul(text, NULL, 10);
  atomic_store(&requests, 0);
  atomic_store(&bytes, 0);
}

__attribute__((destructor)) static void end(void) {
  const char *path = getenv("REQUESTS_TO");
  if (path == NULL) return;
  int file = open(path, O_WRONLY | O_CREAT | O_TRUNC, 0644);
  if (file >= 0) {
    dprintf(file, "%lu %lu\n", atomic_load(&requests), atomic_load(&bytes));
    close(file);
  }
}

/* Counts a request for so many bytes, and tells whether it is the one to refuse. */
static int refuses(size_t size) {
  atomic_fetch_add(&bytes, size);
  if (atomic_fetch_add(&requests, 1) + 1 != refused) return 0;
  errno = ENOMEM;
  return 1;
}

void *malloc(size_t size) { return refuses(size) ? NULL : __libc_malloc(size); }

void *calloc(size_t count, size_t size) { return refuses(count * size) ? NULL : __libc_calloc(count, size); }

void *realloc(void *block, size_t size) { return refuses(size) ? NULL : __libc_realloc(block, size); }

void *memalign(size_t alignment, size_t size) { return refuses(size) ? NULL : __libc_memalign(alignment, size); }

void *aligned_alloc(size_t alignment, size_t size) { return memalign(alignment, size); }

int posix_memalign(void **block, size_t alignment, size_t size) {
  void *made = memalign(alignment, size);
  if (made == NULL) return ENOMEM;
  *block = made;
  return 0;
}
