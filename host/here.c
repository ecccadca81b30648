/* An order over the system's files, whose text is kept in memory. */

#include "memory_files.h"
#include "system_files.h"

static int here_open(void *context, const char *name)
{
	(void)context;
	return is_standard_input(name) ? system_open_empty() : system_open(name);
}

static int64_t here_read(void *context, int file, void *to, size_t room)
{
	(void)context;
	return file ? system_read(file, to, room) : 0;
}

static void here_close(void *context, int file)
{
	(void)context;
	system_close(file);
}

int j39_run_here(j39_instance *instance, int count, const char *const *words, j39_text *out, j39_text *errors)
{
	memory_files memory;
	j39_host host = {sizeof host, &memory, here_open, here_read, memory_write, here_close, NULL, NULL, NULL};
	int status;

	memory_files_begin(&memory, NULL, 0, out, errors);
	status = j39_order(instance, &host, count, words);
	return memory.is_short ? J39_MEMORY : status;
}
