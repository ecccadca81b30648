/* Each request for memory of orders is refused in turn: a run is as the whole one, or ends with 3 and a part of its text, and all is given back. */

#include "check.h"

enum { WORDS_MOST = 4, ENOMEM_OF_LINUX = 12 };

typedef struct {
	const j39_file *files;
	size_t done[2];
	j39_text out, errors;
	long blocks, requests, refused;
	int is_full;
} counted;

static int is_refused(counted *it)
{
	return ++it->requests == it->refused;
}

static void *allocate(void *context, size_t count)
{
	counted *it = context;
	void *block = is_refused(it) ? NULL : malloc(count);

	it->blocks += block != NULL;
	return block;
}

static void *resize(void *context, void *block, size_t count)
{
	counted *it = context;
	void *more = is_refused(it) ? NULL : realloc(block, count);

	it->blocks += !block && more;
	return more;
}

static void release(void *context, void *block)
{
	((counted *)context)->blocks -= block != NULL;
	free(block);
}

static int open_file(void *context, const char *name)
{
	counted *it = context;

	for (int i = 0; i < 2; i++)
		if (it->files[i].name && strcmp(it->files[i].name, name) == 0)
			return it->done[i] = 0, 3 + i;
	return -2;
}

static int64_t read_file(void *context, int file, void *to, size_t room)
{
	counted *it = context;
	const j39_file *from = &it->files[file - 3];
	size_t left = from->size - it->done[file - 3], count = left < room ? left : room;

	memcpy(to, (const char *)from->bytes + it->done[file - 3], count);
	it->done[file - 3] += count;
	return (int64_t)count;
}

static int64_t write_file(void *context, int file, const void *from, size_t count)
{
	counted *it = context;
	j39_text *text = file == 1 ? &it->out : &it->errors;

	if (it->is_full && file == 1)
		return -28;
	if (text->size + count > text->room) {
		text->room = 2 * (text->size + count);
		text->bytes = realloc(text->bytes, text->room);
	}
	memcpy(text->bytes + text->size, from, count);
	text->size += count;
	return (int64_t)count;
}

static void close_file(void *context, int file)
{
	(void)context;
	(void)file;
}

static int run(j39_instance *program, counted *it, int count, const char *const *words)
{
	j39_host host = {sizeof host, it, open_file, read_file, write_file, close_file, allocate, resize, release};

	it->requests = it->blocks = 0;
	it->out.size = it->errors.size = 0;
	return j39_order(program, &host, count, words);
}

static void tried(j39_instance *program, const j39_file *files, int count, const char *const *words)
{
	counted whole = {.files = files}, part = {.files = files};
	int first = run(program, &whole, count, words), wanting = 0;

	CHECK(whole.blocks == 0 && whole.requests > 0);
	for (part.refused = 1; part.refused <= whole.requests; part.refused++) {
		int status = run(program, &part, count, words);

		CHECK(part.blocks == 0);
		if (status == first && is_same(&part.out, &whole.out) && is_same(&part.errors, &whole.errors))
			continue;
		wanting++;
		CHECK(status == J39_MEMORY && is_text(&part.errors, "j39plan: out of memory\n"));
		CHECK(part.out.size <= whole.out.size && (!part.out.size || memcmp(part.out.bytes, whole.out.bytes, part.out.size) == 0));
	}
	CHECK(wanting > 0);
	part.refused = 0;
	part.is_full = 1;
	CHECK(run(program, &part, count, words) == J39_DEVICE && part.blocks == 0 && is_text(&part.errors, "j39plan: device fault\n"));
	j39_text_free(&whole.out);
	j39_text_free(&part.out);
	j39_text_free(&whole.errors);
	j39_text_free(&part.errors);
}

int main(int argc, char **argv)
{
	static const char *const WORDS[][WORDS_MOST] = {
		{"check", "tractor_and_implement.toml"},
		{"load", "axle.toml"},
		{"show", "line.toml"},
		{"run", "transfers.toml", "transfers.directed_lost.schedule"},
		{"follow", "service_requests.toml", "service_requests.start.log"},
	};
	j39_instance *program = argc == 3 ? j39_new() : NULL;

	CHECK(program);
	for (size_t i = 0; program && i < sizeof WORDS / sizeof *WORDS; i++) {
		j39_file files[2] = {file_of(argv[1], WORDS[i][1]), {0}};

		if (WORDS[i][2])
			files[1] = file_of(argv[1], WORDS[i][2]);
		tried(program, files, WORDS[i][2] ? 3 : 2, WORDS[i]);
		free((void *)files[0].bytes);
		free((void *)files[1].bytes);
	}
	j39_free(program);
	return ended("memory");
}
