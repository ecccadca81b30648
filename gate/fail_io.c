/* Loaded in front of the C library, or linked into gate/in_process.c, has reads and writes of a program move at most PIECE bytes each, and one of its calls
   fail: that of the number FAIL_CALL, counted from 1, among those of the letter FAIL_KIND. It fails with the error
   FAIL_ERROR, or moves nothing where that is 0. The letters are o, r and w for a file that is opened, a read, and a write
   on standard output, and e for any other write. The letter of each call is told. */

#ifdef IN_PROCESS
#include "in_process.h"
#else
#include "preloaded.h"
#endif

extern int __open(const char *, int, int);
extern moved __read(int, void *, size);

/* What a call answers that moves nothing, and one that isn't stopped. */
enum { FAILED = -1, NOTHING = 0, GOES_ON = 1 };

static size calls;

/* Counts a call, and answers how it ends. */
static int stop(const char *letter)
{
	const char *kind = getenv("FAIL_KIND");
	int error = (int)number_in("FAIL_ERROR");

	tell(letter);
	if (!kind || *kind != *letter || ++calls != number_in("FAIL_CALL"))
		return GOES_ON;
	if (!error)
		return NOTHING;
	*__errno_location() = error;
	return FAILED;
}

static size piece_of(size bytes)
{
	size most = number_in("PIECE");

	return most && most < bytes ? most : bytes;
}

int open(const char *name, int flags, int mode)
{
	return stop("o") == GOES_ON ? __open(name, flags, mode) : FAILED;
}

moved read(int file, void *buffer, size bytes)
{
	int end = stop("r");

	return end == GOES_ON ? __read(file, buffer, piece_of(bytes)) : end;
}

moved write(int file, const void *buffer, size bytes)
{
	int end = stop(file == 1 ? "w" : "e");

	return end == GOES_ON ? __write(file, buffer, piece_of(bytes)) : end;
}

#ifdef IN_PROCESS
void begin_io(void)
{
	calls = 0;
}
#endif
