/* Pages of memory by mmap. */

#define _DEFAULT_SOURCE
#include "pages.h"

#include <sys/mman.h>

unsigned char *pages_new(size_t size)
{
	void *at = mmap(NULL, size, PROT_READ | PROT_WRITE, MAP_PRIVATE | MAP_ANONYMOUS, -1, 0);

	return at == MAP_FAILED ? NULL : at;
}

void pages_free(unsigned char *pages, size_t size)
{
	munmap(pages, size);
}

int pages_fix(unsigned char *pages, size_t size, int is_code)
{
	return mprotect(pages, size, is_code ? PROT_READ | PROT_EXEC : PROT_READ) == 0;
}
