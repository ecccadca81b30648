/* The functions of a C library that the module calls, for WebAssembly with addresses of 64 bits: memory by memory.copy and memory.fill, a heap, and
   products and shifts of 128 bits. What the machine has of files is imported from page/host.js. */
typedef unsigned long size_t;
typedef unsigned char byte;

void *memmove(void *to, const void *from, size_t n) {
    __asm__ volatile("local.get %0\n\tlocal.get %1\n\tlocal.get %2\n\tmemory.copy 0, 0" : : "r"(to), "r"(from), "r"(n) : "memory");
    return to;
}

void *memcpy(void *to, const void *from, size_t n) { return memmove(to, from, n); }

void *memset(void *to, int value, size_t n) {
    __asm__ volatile("local.get %0\n\tlocal.get %1\n\tlocal.get %2\n\tmemory.fill 0" : : "r"(to), "r"(value), "r"(n) : "memory");
    return to;
}

/* What the program asks of an x86-64 processor before it begins: words of CPUID, each with those that may be used. Compiled for WebAssembly it needs
   none of them, so all are there. */
const void *__x86_get_cpuid_feature_leaf(unsigned leaf) {
    static const unsigned all[8] = {~0u, ~0u, ~0u, ~0u, ~0u, ~0u, ~0u, ~0u};
    (void)leaf;
    return all;
}

/* Blocks have sizes that are powers of two, 32 bytes at least, and a head of 16 bytes. A freed one goes to the list of its size, and is never
   split or joined: a run asks for a few hundred sizes, and its memory goes with it. */
enum { SMALLEST = 5, LARGEST = 31, PAGE_BITS = 16 };
struct head {
    size_t kind;
    struct head *after;
};
extern byte __heap_base;
static struct head *lists[LARGEST + 1];
static byte *next;

/* The answer of memory.grow is not looked at, since it has 32 bits once the memory is lowered: the size tells. */
static int has_room(size_t end) {
    size_t have = __builtin_wasm_memory_size(0) << PAGE_BITS;
    if (end > have) __builtin_wasm_memory_grow(0, (end - have + (1 << PAGE_BITS) - 1) >> PAGE_BITS);
    return end <= __builtin_wasm_memory_size(0) << PAGE_BITS;
}

void *malloc(size_t n) {
    size_t kind = SMALLEST;
    while (kind <= LARGEST && ((size_t)1 << kind) - sizeof(struct head) < n) kind++;
    if (kind > LARGEST) return 0;
    struct head *block = lists[kind];
    if (block) {
        lists[kind] = block->after;
        return block + 1;
    }
    if (!next) next = (byte *)(((size_t)&__heap_base + 15) & ~(size_t)15);
    if (!has_room((size_t)next + ((size_t)1 << kind))) return 0;
    block = (struct head *)next;
    next += (size_t)1 << kind;
    block->kind = kind;
    return block + 1;
}

void free(void *at) {
    if (!at) return;
    struct head *block = (struct head *)at - 1;
    block->after = lists[block->kind];
    lists[block->kind] = block;
}

void *realloc(void *at, size_t n) {
    if (!at) return malloc(n);
    size_t room = ((size_t)1 << ((struct head *)at - 1)->kind) - sizeof(struct head);
    if (n <= room) return at;
    void *to = malloc(n);
    if (to) {
        memcpy(to, at, room);
        free(at);
    }
    return to;
}

/* Numbers of 128 bits, which WebAssembly has none of. */
typedef unsigned long u64;
typedef __int128 i128;
typedef union {
    i128 whole;
    struct {
        u64 low, high;
    } half;
} pair;

i128 __multi3(i128 a, i128 b) {
    pair x = {.whole = a}, y = {.whole = b}, r;
    u64 al = (unsigned)x.half.low, ah = x.half.low >> 32, bl = (unsigned)y.half.low, bh = y.half.low >> 32;
    u64 low = al * bl, mid = ah * bl + (low >> 32), other = al * bh + (unsigned)mid;
    r.half.low = other << 32 | (unsigned)low;
    r.half.high = ah * bh + (mid >> 32) + (other >> 32) + x.half.high * y.half.low + x.half.low * y.half.high;
    return r.whole;
}

i128 __ashlti3(i128 a, int n) {
    pair x = {.whole = a}, r;
    if (!n) return a;
    r.half.low = n & 64 ? 0 : x.half.low << n;
    r.half.high = n & 64 ? x.half.low << (n & 63) : x.half.high << n | x.half.low >> (64 - n);
    return r.whole;
}

i128 __lshrti3(i128 a, int n) {
    pair x = {.whole = a}, r;
    if (!n) return a;
    r.half.high = n & 64 ? 0 : x.half.high >> n;
    r.half.low = n & 64 ? x.half.high >> (n & 63) : x.half.low >> n | x.half.high << (64 - n);
    return r.whole;
}

i128 __ashrti3(i128 a, int n) {
    pair x = {.whole = a}, r;
    u64 sign = (u64)((long)x.half.high >> 63);
    if (!n) return a;
    r.half.high = n & 64 ? sign : (u64)((long)x.half.high >> n);
    r.half.low = n & 64 ? (u64)((long)x.half.high >> (n & 63)) : x.half.low >> n | x.half.high << (64 - n);
    return r.whole;
}
