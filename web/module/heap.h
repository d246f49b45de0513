/* The functions of heap.c, and the words that the C of the module is written in. */
#ifndef HEAP_H
#define HEAP_H

typedef unsigned char u8;
typedef unsigned int u32;
typedef unsigned long u64;
typedef long i64;

#ifdef __wasm__
#define EXPORTED(name) __attribute__((export_name(#name)))
#else
#define EXPORTED(name)
#endif

/* A block of so many bytes, aligned to 16; null where memory was refused. */
EXPORTED(heap_alloc) void *heap_alloc(u64 bytes);
/* Makes a block longer or shorter; null where memory was refused, and then the block is as it was. */
void *heap_realloc(void *given, u64 bytes);
/* Gives a block back; null is none. */
EXPORTED(heap_free) void heap_free(void *given);

#endif
