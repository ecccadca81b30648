/* Loaded in front of the C library, or linked into gate/in_process.c, has one allocation of a program refused: that of the number in FAIL_ALLOC, counted
   from 1. That it was asked for is told by the letter x. */

#ifdef IN_PROCESS
#include "in_process.h"
#else
#include "preloaded.h"
#endif

extern void *__libc_malloc(size);
extern void *__libc_realloc(void *, size);

enum { OUT_OF_MEMORY = 12 };

static size calls;

static int is_refused(void)
{
	if (++calls != number_in("FAIL_ALLOC"))
		return 0;
	tell("x");
	*__errno_location() = OUT_OF_MEMORY;
	return 1;
}

void *malloc(size bytes)
{
	return is_refused() ? 0 : __libc_malloc(bytes);
}

void *realloc(void *block, size bytes)
{
	return is_refused() ? 0 : __libc_realloc(block, bytes);
}

#ifdef IN_PROCESS
void begin_alloc(void)
{
	calls = 0;
}
#endif
