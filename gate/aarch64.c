/* What the program calls of the kit's libos_c.a and liblibc_c.a, which the kit has for x86-64 alone: blocks of memory, the words of the command line,
   and errno. It is compiled without headers, which Debian's packages have for other compilers. */

typedef unsigned long size;
typedef struct { size is_there; void *block; } given;

extern void *malloc(size), *realloc(void *, size);
extern void free(void *);
extern int *__errno_location(void);

enum { NO_WORD = -1, NO_ROOM = -2 };
static char nothing[1] __attribute__((aligned(16)));
static size count;
static char **words;

static given given_of(void *block) { return (given){block != 0, block ? block : nothing}; }

/* Blocks of no bytes have as many as they are aligned to: malloc answers none. */
given rattle_alloc(size bytes, size align) { return given_of(malloc(bytes ? bytes : align)); }

given rattle_realloc(void *block, size old, size bytes, size align) {
    (void)old;
    return given_of(realloc(block, bytes ? bytes : align));
}

void rattle_dealloc(void *block) { free(block); }

/* glibc hands it the words before main. */
static void keep(int argc, char **argv) {
    count = (size)argc;
    words = argv;
}
__attribute__((section(".init_array"), used)) static void (*const kept)(int, char **) = keep;

/* Writes a word without its end, and answers how long it is. */
long rattle_arg(size number, char *to, size room) {
    if (number >= count || !words[number]) return NO_WORD;
    size at = 0;
    for (const char *word = words[number]; word[at]; at++) {
        if (at == room) return NO_ROOM;
        to[at] = word[at];
    }
    return (long)at;
}

int rattle_errno(void) { return *__errno_location(); }

void rattle_set_errno(int number) { *__errno_location() = number; }
