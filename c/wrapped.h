/* The allocator of a check: malloc, realloc and free, which the linker wraps. `live` counts what is allocated. `left` is how many
 * more allocations succeed, or -1 if none is to fail; `failed` counts the failures. */
#ifndef ZVT_WRAPPED_H
#define ZVT_WRAPPED_H
#include <stdio.h>
#include <stdlib.h>
static long left = -1, live = 0, failed = 0;
void *__real_malloc(size_t n); void *__real_realloc(void *p, size_t n); void __real_free(void *p);
static int fails(void) { if (left < 0) return 0; if (left == 0) return failed++, 1; left--; return 0; }
void *__wrap_malloc(size_t n) { if (fails()) return 0; live++; return __real_malloc(n); }
void *__wrap_realloc(void *p, size_t n) { if (fails()) return 0; if (!p) live++; return __real_realloc(p, n); }
void __wrap_free(void *p) { if (p) live--; __real_free(p); }

#define CHECK(holds) do { if (!(holds)) { printf("%s: line %d: this does not hold: %s\n", __FILE__, __LINE__, #holds); exit(1); } } while (0)
#endif
