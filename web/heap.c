/* The heap of the module, in place of the C library's: what rattle_alloc, rattle_realloc and rattle_dealloc promise to the proved
 * code, and blocks for the page's bytes. Nothing proves this file. The 16 bytes before a block hold its class. Class c has blocks of
 * 16 * (4 + c % 4) * 2^(c / 4) bytes, those 16 included, so a block wastes at most a quarter of itself. Freed blocks of a class are kept in
 * a list for the next one of this class; the last block of the heap grows and shrinks in place. Memory that the module got is never
 * given back: the page opens a new instance instead. */
typedef unsigned long long u64;

/* ok is 1 and p the block, or ok is 0 and p any number that is not null */
typedef struct {
    u64 ok, p;
} Tried;

enum { HEAD = 16, CLASSES = 240, PAGE = 65536, MEBIBYTE = 1048576 };

/* Above this no address is ever mapped, so that a stack that grows below address 0 traps also where addresses have 32 bits. */
#define MOST_MEMORY (((u64)1 << 32) - 16 * MEBIBYTE)

extern unsigned char __heap_base[];
static u64 waiting[CLASSES];
static u64 top;

static u64 *word_at(u64 address) {
    return (u64 *)address;
}

static u64 size_of(u64 class) {
    return (u64)16 * (4 + class % 4) << class / 4;
}

/* the least class whose blocks have this many bytes, which are at most 2^62 */
static u64 class_of(u64 bytes) {
    u64 units = (bytes + 15) / 16;
    if (units <= 4) return 0;
    u64 shift = 61 - (u64)__builtin_clzll(units - 1);
    return 4 * shift + ((units - 1) >> shift) - 3;
}

/* whether memory reaches this address, after a try to grow it. What memory.grow returns is not looked at, since a module that was
 * made one of 32 bits returns another number where it fails. */
static int reaches(u64 end) {
    u64 have = (u64)__builtin_wasm_memory_size(0) * PAGE;
    if (end <= have) return 1;
    if (end > MOST_MEMORY) return 0;
    u64 more = end - have < MEBIBYTE ? MEBIBYTE : end - have;
    if (more > MOST_MEMORY - have) more = MOST_MEMORY - have;
    __builtin_wasm_memory_grow(0, (more + PAGE - 1) / PAGE);
    return end <= (u64)__builtin_wasm_memory_size(0) * PAGE;
}

/* a block of the class, or 0 */
static u64 taken(u64 class) {
    u64 block = waiting[class];
    if (block != 0) {
        waiting[class] = *word_at(block);
        return block;
    }
    u64 begin = top != 0 ? top : ((u64)__heap_base + 15) / 16 * 16;
    if (!reaches(begin + size_of(class))) return 0;
    top = begin + size_of(class);
    *word_at(begin) = class;
    return begin + HEAD;
}

static void given_back(u64 block) {
    u64 class = *word_at(block - HEAD);
    if (block - HEAD + size_of(class) == top) {
        top = block - HEAD;
    } else {
        *word_at(block) = waiting[class];
        waiting[class] = block;
    }
}

static int is_too_long(u64 bytes) {
    return bytes > (u64)1 << 40;
}

static Tried tried(u64 block) {
    return block != 0 ? (Tried){1, block} : (Tried){0, HEAD};
}

Tried rattle_alloc(u64 bytes, u64 align) {
    (void)align;
    return tried(is_too_long(bytes) ? 0 : taken(class_of(bytes + HEAD)));
}

Tried rattle_realloc(u64 block, u64 kept, u64 bytes, u64 align) {
    (void)align;
    if (is_too_long(bytes)) return tried(0);
    u64 old = *word_at(block - HEAD), class = class_of(bytes + HEAD);
    if (class == old) return tried(block);
    if (block - HEAD + size_of(old) == top) {
        if (!reaches(block - HEAD + size_of(class))) return tried(0);
        top = block - HEAD + size_of(class);
        *word_at(block - HEAD) = class;
        return tried(block);
    }
    u64 moved = taken(class);
    if (moved == 0) return tried(0);
    __builtin_memcpy((void *)moved, (const void *)block, kept < bytes ? kept : bytes);
    given_back(block);
    return tried(moved);
}

void rattle_dealloc(u64 block) {
    given_back(block);
}

/* a block for this many bytes of the page, or 0 */
__asm__(".export_name edfvd_web_take, edfvd_web_take");
u64 edfvd_web_take(u64 bytes) {
    return is_too_long(bytes) ? 0 : taken(class_of(bytes + HEAD));
}

/* takes that block back */
__asm__(".export_name edfvd_web_give, edfvd_web_give");
void edfvd_web_give(u64 block) {
    given_back(block);
}
