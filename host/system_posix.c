/* The system's files by POSIX. */

#define _POSIX_C_SOURCE 200809L
#include "system_files.h"

#include <errno.h>
#include <fcntl.h>
#include <string.h>
#include <unistd.h>

static int opened(int file)
{
	return file < 0 ? -errno : file;
}

int system_open(const char *name)
{
	return opened(open(name, O_RDONLY | O_CLOEXEC));
}

int64_t system_read(int file, void *to, size_t room)
{
	ssize_t count = read(file, to, room);

	return count < 0 ? -errno : count;
}

int64_t system_write(int file, const void *from, size_t count)
{
	ssize_t done = write(file, from, count);

	return done < 0 ? -errno : done;
}

void system_close(int file)
{
	close(file);
}

int is_standard_input(const char *name)
{
	return strcmp(name, "/dev/stdin") == 0 || strcmp(name, "/dev/fd/0") == 0 || strcmp(name, "/proc/self/fd/0") == 0;
}

int system_open_input(void)
{
	return opened(dup(STDIN_FILENO));
}

int system_open_empty(void)
{
	return system_open("/dev/null");
}
