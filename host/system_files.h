/* The system's files, as an order reads and writes them: numbers of files, or negative errors of Linux. */

#ifndef J39_SYSTEM_FILES_H
#define J39_SYSTEM_FILES_H

#include <stddef.h>
#include <stdint.h>

/* Opens a file to be read. */
int system_open(const char *name);
int64_t system_read(int file, void *to, size_t room);
int64_t system_write(int file, const void *from, size_t count);
void system_close(int file);

/* Whether a name is that of standard input. */
int is_standard_input(const char *name);
/* Opens standard input once more, from where it stands; an empty one. */
int system_open_input(void);
int system_open_empty(void);

#endif
