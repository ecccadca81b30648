/* The calls of an order between gate/in_process.c and fail_io.c and fail_alloc.c, which stand in front of the system's. In these two, which name
   calls as the C library does, it stands in place of preloaded.h, and gives the names another meaning. */

#include <stddef.h>
#include <stdint.h>

/* What an order calls, of which one may be told to fail. */
int order_open(const char *name, int flags, int mode);
int64_t order_read(int file, void *buffer, size_t bytes);
int64_t order_write(int file, const void *buffer, size_t bytes);
void *order_malloc(size_t bytes);
void *order_realloc(void *block, size_t bytes);
int *order_errno(void);

/* What these calls come to. */
int system_call_open(const char *name, int flags, int mode);
int64_t system_call_read(int file, void *buffer, size_t bytes);
int64_t system_call_write(int file, const void *buffer, size_t bytes);
void *system_call_malloc(size_t bytes);
void *system_call_realloc(void *block, size_t bytes);

/* What the request asks for by a name, as text and as number; a letter is told. */
const char *asked_for(const char *name);
size_t number_in(const char *name);
void order_tells(const char *letter);

/* Before each order: no call was counted. */
void begin_io(void);
void begin_alloc(void);

#ifdef IN_PROCESS
typedef size_t size;
typedef int64_t moved;

#define open order_open
#define read order_read
#define write order_write
#define malloc order_malloc
#define realloc order_realloc
#define __open system_call_open
#define __read system_call_read
#define __write system_call_write
#define __libc_malloc system_call_malloc
#define __libc_realloc system_call_realloc
#define __errno_location order_errno
#define getenv asked_for
#define tell order_tells
#endif
