/* What an order reads and writes in memory. */

#ifndef J39_MEMORY_FILES_H
#define J39_MEMORY_FILES_H

#include "j39plan.h"

/* How many files an order may have open at once; and the errors of Linux that it is told. */
enum { OPEN_MOST = 32, FIRST_FILE = 3 };
enum { LINUX_ENOENT = 2, LINUX_EIO = 5, LINUX_EBADF = 9, LINUX_ENOMEM = 12, LINUX_EMFILE = 24 };

/* The name of standard input. */
#define STANDARD_INPUT "/dev/stdin"

typedef struct {
	const j39_file *file; /* NULL: not open */
	size_t done;
} open_file;

typedef struct {
	const j39_file *files;
	int count;
	open_file input, opened[OPEN_MOST];
	j39_text *out, *errors;
	int is_short; /* there was no memory for what was written */
} memory_files;

void memory_files_begin(memory_files *it, const j39_file *files, int count, j39_text *out, j39_text *errors);

/* The callbacks of a host, over a memory_files. */
int memory_open(void *context, const char *name);
int64_t memory_read(void *context, int file, void *to, size_t room);
int64_t memory_write(void *context, int file, const void *from, size_t count);
void memory_close(void *context, int file);

/* Appends to a text; 0: no memory. */
int text_put(j39_text *text, const void *from, size_t count);

#endif
