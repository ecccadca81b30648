/* The system's files by Windows: names are UTF-8, and nothing is changed in what is read or written. */

#include "system_files.h"

#include <errno.h>
#include <fcntl.h>
#include <io.h>
#include <stdlib.h>
#include <string.h>
#include <windows.h>

enum { PIECE = 1 << 30 };

static int opened(int file)
{
	return file < 0 ? -errno : file;
}

int system_open(const char *name)
{
	int count = MultiByteToWideChar(CP_UTF8, MB_ERR_INVALID_CHARS, name, -1, NULL, 0), file;
	wchar_t *wide = count > 0 ? malloc((size_t)count * sizeof *wide) : NULL;

	if (!wide)
		return -(count > 0 ? ENOMEM : ENOENT);
	MultiByteToWideChar(CP_UTF8, 0, name, -1, wide, count);
	file = opened(_wopen(wide, _O_RDONLY | _O_BINARY | _O_NOINHERIT));
	free(wide);
	return file;
}

int64_t system_read(int file, void *to, size_t room)
{
	int count = _read(file, to, room < PIECE ? (unsigned)room : PIECE);

	return count < 0 ? -errno : count;
}

int64_t system_write(int file, const void *from, size_t count)
{
	int done = _write(file, from, count < PIECE ? (unsigned)count : PIECE);

	return done < 0 ? -errno : done;
}

void system_close(int file)
{
	_close(file);
}

int is_standard_input(const char *name)
{
	return strcmp(name, "-") == 0 || strcmp(name, "/dev/stdin") == 0;
}

int system_open_input(void)
{
	return opened(_dup(0));
}

int system_open_empty(void)
{
	return system_open("NUL");
}
