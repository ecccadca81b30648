/* Pages of memory. */

#ifndef J39_PAGES_H
#define J39_PAGES_H

#include <stddef.h>

/* Pages that can be read and written, all zero; NULL: no memory. */
unsigned char *pages_new(size_t size);
void pages_free(unsigned char *pages, size_t size);

/* Has pages be read alone, or run too; 0 where the system refuses. */
int pages_fix(unsigned char *pages, size_t size, int is_code);

#endif
