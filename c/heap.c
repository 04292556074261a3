/*
 * How the proved code gets memory on 64-bit ARM: the three functions that the kit's crate libc declares in src/heap.rt. The kit has them
 * compiled for x86-64 alone. What src/heap.rt says of them: a block for `size` bytes that is aligned to `align`, a power of two up to
 * 16, or none; and a pointer that is never null, even for 0 bytes or if malloc fails.
 */
#include <stdbool.h>
#include <stddef.h>
#include <stdlib.h>

/* libc::types::Tried: whether there is memory, and where. */
typedef struct tried {
    bool ok;
    void *p;
} tried;

_Static_assert(sizeof(tried) == 16 && offsetof(tried, p) == 8, "tried");
_Static_assert(_Alignof(max_align_t) >= 16, "malloc aligns blocks to 16");

extern tried rattle_alloc(size_t size, size_t align);
extern tried rattle_realloc(void *at, size_t kept, size_t size, size_t align);
extern void rattle_dealloc(void *at);

static char nothing; /* where a result without memory points; nothing reads or writes there */

static tried found(void *at) { return at == NULL ? (tried){false, &nothing} : (tried){true, at}; }

/* malloc(0) may return null, which would look like a failure. */
tried rattle_alloc(size_t size, size_t align) { return found(malloc(size == 0 ? align : size)); }

tried rattle_realloc(void *at, size_t kept, size_t size, size_t align) {
    (void)kept; /* realloc keeps all bytes */
    return found(realloc(at, size == 0 ? align : size));
}

void rattle_dealloc(void *at) { free(at); }
