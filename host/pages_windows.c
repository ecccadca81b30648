/* Pages of memory by VirtualAlloc. */

#include "pages.h"

#include <windows.h>

unsigned char *pages_new(size_t size)
{
	return VirtualAlloc(NULL, size, MEM_COMMIT | MEM_RESERVE, PAGE_READWRITE);
}

void pages_free(unsigned char *pages, size_t size)
{
	(void)size;
	VirtualFree(pages, 0, MEM_RELEASE);
}

int pages_fix(unsigned char *pages, size_t size, int is_code)
{
	DWORD before;

	return VirtualProtect(pages, size, is_code ? PAGE_EXECUTE_READ : PAGE_READONLY, &before) && FlushInstructionCache(GetCurrentProcess(), pages, size);
}
