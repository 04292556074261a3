/*
 * What the libraries need of a C library, for a program that has none: memory from one array, handed out from its beginning and never
 * taken back, and four functions on bytes. bench/small.sh links it to see how much code a program has beside the C library; a program of
 * one's own brings better ones.
 */
#include <stddef.h>
#include <stdint.h>

enum { HEAP = 64 * 1024, ALIGNMENT = 16 };

static _Alignas(ALIGNMENT) unsigned char heap[HEAP];
static size_t used;

void *malloc(size_t size);
void *realloc(void *at, size_t size);
void free(void *at);
void *memcpy(void *restrict to, const void *restrict from, size_t size);
void *memmove(void *to, const void *from, size_t size);
void *memset(void *to, int byte, size_t size);
size_t strlen(const char *text);
int main(void);
void _start(void);

void *malloc(size_t size) {
    size_t taken = (size + ALIGNMENT - 1) / ALIGNMENT * ALIGNMENT;
    if (size > HEAP || taken > HEAP - used) return NULL;
    void *at = heap + used;
    used += taken;
    return at;
}

/* The old block has at most `used` bytes before the new one, so none beyond the array is read. */
void *realloc(void *at, size_t size) {
    unsigned char *to = malloc(size);
    if (at == NULL || to == NULL) return to;
    const unsigned char *from = at;
    for (size_t place = 0; place < size && from + place < to; place++) to[place] = from[place];
    return to;
}

void free(void *at) { (void)at; }

void *memcpy(void *restrict to, const void *restrict from, size_t size) {
    volatile unsigned char *bytes = to;
    for (size_t place = 0; place < size; place++) bytes[place] = ((const unsigned char *)from)[place];
    return to;
}

void *memmove(void *to, const void *from, size_t size) {
    volatile unsigned char *bytes = to;
    if ((uintptr_t)to <= (uintptr_t)from) return memcpy(to, from, size);
    while (size-- > 0) bytes[size] = ((const unsigned char *)from)[size];
    return to;
}

void *memset(void *to, int byte, size_t size) {
    volatile unsigned char *bytes = to;
    for (size_t place = 0; place < size; place++) bytes[place] = (unsigned char)byte;
    return to;
}

size_t strlen(const char *text) {
    size_t length = 0;
    while (text[length] != 0) length++;
    return length;
}

/* Where the program begins: main, and then the system call that ends a program of Linux with the status of main. */
void _start(void) {
    register long status __asm__("x0") = main();
    register long call __asm__("x8") = 93;
    __asm__ volatile("svc 0" : : "r"(status), "r"(call));
    for (;;) continue;
}
