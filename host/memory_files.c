/* Files in memory, and orders over them. */

#include "memory_files.h"

#include "order.h"

#include <stdlib.h>
#include <string.h>

int text_put(j39_text *text, const void *from, size_t count)
{
	if (text->room - text->size < count) {
		size_t room = 2 * text->room + count + 256;
		char *more = room > count ? realloc(text->bytes, room) : NULL;

		if (!more)
			return 0;
		text->bytes = more;
		text->room = room;
	}
	if (count)
		memcpy(text->bytes + text->size, from, count);
	text->size += count;
	return 1;
}

void j39_text_free(j39_text *text)
{
	free(text->bytes);
	memset(text, 0, sizeof *text);
}

static const j39_file *found(const memory_files *it, const char *name)
{
	for (int i = 0; i < it->count; i++)
		if (strcmp(it->files[i].name, name) == 0)
			return &it->files[i];
	return NULL;
}

void memory_files_begin(memory_files *it, const j39_file *files, int count, j39_text *out, j39_text *errors)
{
	memset(it, 0, sizeof *it);
	it->files = files;
	it->count = count;
	it->out = out;
	it->errors = errors;
	it->input.file = found(it, STANDARD_INPUT);
}

int memory_open(void *context, const char *name)
{
	memory_files *it = context;
	const j39_file *file = found(it, name);

	if (!file)
		return -LINUX_ENOENT;
	for (int i = 0; i < OPEN_MOST; i++) {
		if (it->opened[i].file)
			continue;
		it->opened[i].file = file;
		it->opened[i].done = 0;
		return i + FIRST_FILE;
	}
	return -LINUX_EMFILE;
}

static open_file *opened(memory_files *it, int file)
{
	if (file == 0)
		return &it->input;
	return file >= FIRST_FILE && file < FIRST_FILE + OPEN_MOST ? &it->opened[file - FIRST_FILE] : NULL;
}

int64_t memory_read(void *context, int file, void *to, size_t room)
{
	open_file *it = opened(context, file);
	size_t left, count;

	if (!it || (!it->file && file != 0))
		return -LINUX_EBADF;
	left = it->file ? it->file->size - it->done : 0;
	count = left < room ? left : room;
	if (count)
		memcpy(to, (const char *)it->file->bytes + it->done, count);
	it->done += count;
	return (int64_t)count;
}

int64_t memory_write(void *context, int file, const void *from, size_t count)
{
	memory_files *it = context;

	if (text_put(file == 1 ? it->out : it->errors, from, count))
		return (int64_t)count;
	it->is_short = 1;
	return -LINUX_ENOMEM;
}

void memory_close(void *context, int file)
{
	open_file *it = opened(context, file);

	if (it && file != 0)
		it->file = NULL;
}

int j39_run(j39_instance *instance, int count, const char *const *words, const j39_file *files, int file_count, j39_text *out, j39_text *errors)
{
	memory_files memory;
	j39_host host = {sizeof host, &memory, memory_open, memory_read, memory_write, memory_close, NULL, NULL, NULL};
	int status;

	memory_files_begin(&memory, files, file_count, out, errors);
	status = j39_order(instance, &host, count, words);
	return memory.is_short ? J39_MEMORY : status;
}
