/* An order whose input comes in pieces: its thread and the caller's hand each other a baton, so that one alone of them runs. */

#include "instance.h"
#include "memory_files.h"
#include "order.h"

#include <stdlib.h>
#include <string.h>

enum { CALLER, ORDER };
/* The number of the file that is fed. */
enum { FED = FIRST_FILE + OPEN_MOST };

struct j39_session {
	order order;
	memory_files memory;
	j39_host host;
	baton *baton;
	const char *input;
	j39_text out, errors;
	const unsigned char *piece;
	size_t left;
	int is_last, is_dropped, is_shown, status;
	int has_ended; /* set on the order's thread, read on the caller's when it has the baton */
};

static int session_open(void *context, const char *name)
{
	j39_session *it = context;

	return strcmp(name, it->input) == 0 ? FED : memory_open(&it->memory, name);
}

static int is_fed(const j39_session *it, int file)
{
	return file == FED || (file == 0 && strcmp(it->input, STANDARD_INPUT) == 0);
}

static int64_t session_read(void *context, int file, void *to, size_t room)
{
	j39_session *it = context;
	size_t count;

	if (!is_fed(it, file))
		return memory_read(&it->memory, file, to, room);
	while (!it->left && !it->is_last && !it->is_dropped) {
		baton_hand(it->baton, CALLER);
		baton_wait(it->baton, ORDER);
	}
	if (it->is_dropped)
		return -LINUX_EIO;
	count = it->left < room ? it->left : room;
	if (count)
		memcpy(to, it->piece, count);
	it->piece += count;
	it->left -= count;
	return (int64_t)count;
}

static int64_t session_write(void *context, int file, const void *from, size_t count)
{
	j39_session *it = context;

	return it->is_dropped ? (int64_t)count : memory_write(&it->memory, file, from, count);
}

static void session_close(void *context, int file)
{
	j39_session *it = context;

	memory_close(&it->memory, file);
}

/* On the order's thread, at its end. The order is the session's first member. */
static void session_ended(void *context)
{
	j39_session *it = context;

	it->has_ended = 1;
	baton_hand(it->baton, CALLER);
}

/* Waits until the order asks for more, or has ended. */
static int waited(j39_session *it)
{
	baton_wait(it->baton, CALLER);
	if (!it->has_ended)
		return J39_GOES_ON;
	it->status = order_join(&it->order);
	if (it->memory.is_short)
		it->status = J39_MEMORY;
	return it->status;
}

static int gone_on(j39_session *it, const void *bytes, size_t size, const j39_text **out)
{
	if (it->is_shown)
		it->out.size = 0;
	it->is_shown = 1;
	*out = &it->out;
	if (it->has_ended)
		return it->status;
	it->piece = bytes;
	it->left = size;
	baton_hand(it->baton, ORDER);
	return waited(it);
}

j39_session *j39_begin(j39_instance *instance, int count, const char *const *words, const char *input, const j39_file *files, int file_count)
{
	j39_session *it = calloc(1, sizeof *it);

	if (!it)
		return NULL;
	it->input = input;
	memory_files_begin(&it->memory, files, file_count, &it->out, &it->errors);
	it->host = (j39_host){sizeof it->host, it, session_open, session_read, session_write, session_close, NULL, NULL, NULL};
	it->order = (order){.instance = instance, .host = &it->host, .count = count, .words = words};
	it->baton = baton_new(ORDER);
	if (!it->baton || order_start(&it->order, session_ended) != 0) {
		if (it->baton)
			baton_free(it->baton);
		free(it);
		return NULL;
	}
	instance_entered(instance);
	waited(it);
	return it;
}

int j39_feed(j39_session *it, const void *bytes, size_t size, const j39_text **out)
{
	return gone_on(it, bytes, size, out);
}

int j39_end(j39_session *it, const j39_text **out)
{
	it->is_last = 1;
	return gone_on(it, NULL, 0, out);
}

const j39_text *j39_complaints(const j39_session *it)
{
	return &it->errors;
}

void j39_drop(j39_session *it)
{
	if (!it)
		return;
	if (!it->has_ended) {
		it->is_dropped = 1;
		baton_hand(it->baton, ORDER);
		waited(it);
	}
	instance_left(it->order.instance);
	baton_free(it->baton);
	j39_text_free(&it->out);
	j39_text_free(&it->errors);
	free(it);
}
