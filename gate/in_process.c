/* in_process PROGRAM: maps a program by host/, and runs the orders that standard input tells, one after another, in this process; of each it writes
   the answer on standard output. gate/in_process.py has the other side. A message is a count of fields, and of each its size and its bytes; counts
   and sizes are numbers of 32 bits, lowest byte first.

   A request: folder, file that is standard input, bytes that are it where there is no such file, how many bytes standard output takes (none: all),
   then PIECE, FAIL_KIND, FAIL_CALL, FAIL_ERROR and FAIL_ALLOC as fail_io.c and fail_alloc.c have them, then the words.
   An answer: status, blocks of memory that weren't given back, standard output, standard error, letters of calls. The first answer, before any request,
   is what j39_map says of the program. */

#include "in_process.h"

#include "j39plan.h"
#include "memory_files.h"
#include "system_files.h"

#include <stdio.h>
#include <stdlib.h>
#include <string.h>
#ifdef _WIN32
#include <direct.h>
#include <fcntl.h>
#include <io.h>
#define chdir _chdir
#else
#include <unistd.h>
#endif

enum { FOLDER, INPUT_FILE, INPUT, ROOM, PIECE, FAIL_KIND, FAIL_CALL, FAIL_ERROR, FAIL_ALLOC, WORDS, FIELDS_MOST = 128 };
enum { LINUX_EFBIG = 27, PROGRAM_MOST = 1 << 26 };

/* The names of fields, as the libraries ask for them. */
static const char *const NAMES[WORDS] = {"", "", "", "", "PIECE", "FAIL_KIND", "FAIL_CALL", "FAIL_ERROR", "FAIL_ALLOC"};

/* The request, and what its order has done. */
static struct {
	char *fields[FIELDS_MOST];
	size_t sizes[FIELDS_MOST], count;
	int input, error;
	size_t done, blocks;
	j39_text out, errors, told;
} now;

const char *asked_for(const char *name)
{
	for (int i = PIECE; i < WORDS; i++)
		if (strcmp(NAMES[i], name) == 0)
			return now.fields[i];
	return NULL;
}

size_t number_in(const char *name)
{
	const char *digits = asked_for(name);

	return digits ? strtoul(digits, NULL, 10) : 0;
}

static void put(j39_text *text, const void *bytes, size_t count)
{
	if (!text_put(text, bytes, count))
		exit(J39_MEMORY);
}

void order_tells(const char *letter)
{
	put(&now.told, letter, 1);
}

int *order_errno(void)
{
	return &now.error;
}

/* What a callback answers of what a call in front of the system's does. */
static int64_t answered(int64_t number)
{
	return number < 0 ? -now.error : number;
}

/* What such a call answers of what the system's does. */
static int64_t noted(int64_t number)
{
	if (number >= 0)
		return number;
	now.error = (int)-number;
	return -1;
}

int system_call_open(const char *name, int flags, int mode)
{
	(void)flags;
	(void)mode;
	return is_standard_input(name) ? 0 : (int)noted(system_open(name));
}

int64_t system_call_read(int file, void *buffer, size_t bytes)
{
	size_t left = now.sizes[INPUT] - now.done, count = left < bytes ? left : bytes;

	if (file || now.input)
		return noted(system_read(file ? file : now.input, buffer, bytes));
	memcpy(buffer, now.fields[INPUT] + now.done, count);
	now.done += count;
	return (int64_t)count;
}

int64_t system_call_write(int file, const void *buffer, size_t bytes)
{
	size_t room = now.sizes[ROOM] ? strtoul(now.fields[ROOM], NULL, 10) : (size_t)-1, left = room - now.out.size;

	if (file != 1) {
		put(&now.errors, buffer, bytes);
		return (int64_t)bytes;
	}
	if (bytes && !left)
		return noted(-LINUX_EFBIG);
	bytes = bytes < left ? bytes : left;
	put(&now.out, buffer, bytes);
	return (int64_t)bytes;
}

void *system_call_malloc(size_t bytes)
{
	void *block = malloc(bytes);

	now.blocks += block != NULL;
	return block;
}

void *system_call_realloc(void *block, size_t bytes)
{
	void *more = realloc(block, bytes);

	now.blocks += !block && more;
	return more;
}

static int order_opens(void *context, const char *name)
{
	(void)context;
	return (int)answered(order_open(name, 0, 0));
}

static int64_t order_reads(void *context, int file, void *to, size_t room)
{
	(void)context;
	return answered(order_read(file, to, room));
}

static int64_t order_writes(void *context, int file, const void *from, size_t count)
{
	(void)context;
	return answered(order_write(file, from, count));
}

static void order_closes(void *context, int file)
{
	(void)context;
	if (file > 2)
		system_close(file);
}

static void *order_allocates(void *context, size_t count)
{
	(void)context;
	return order_malloc(count);
}

static void *order_resizes(void *context, void *block, size_t count)
{
	(void)context;
	return order_realloc(block, count);
}

static void order_releases(void *context, void *block)
{
	(void)context;
	now.blocks -= block != NULL;
	free(block);
}

static int is_read(void *to, size_t count)
{
	return fread(to, 1, count, stdin) == count;
}

static size_t number_read(void)
{
	unsigned char bytes[4] = {0};

	if (!is_read(bytes, 4))
		exit(0);
	return bytes[0] | (size_t)bytes[1] << 8 | (size_t)bytes[2] << 16 | (size_t)bytes[3] << 24;
}

/* Reads a request; the process ends where there is none. */
static void read_request(void)
{
	now.count = number_read();
	if (now.count < WORDS || now.count > FIELDS_MOST)
		exit(J39_UNREADABLE);
	for (size_t i = 0; i < now.count; i++) {
		now.sizes[i] = number_read();
		now.fields[i] = malloc(now.sizes[i] + 1);
		if (!now.fields[i] || !is_read(now.fields[i], now.sizes[i]))
			exit(J39_MEMORY);
		now.fields[i][now.sizes[i]] = 0;
	}
}

static void write_number(size_t number)
{
	const unsigned char bytes[] = {(unsigned char)number, (unsigned char)(number >> 8), (unsigned char)(number >> 16), (unsigned char)(number >> 24)};

	fwrite(bytes, 1, sizeof bytes, stdout);
}

static void write_text(j39_text *text)
{
	write_number(text->size);
	fwrite(text->bytes, 1, text->size, stdout);
	j39_text_free(text);
}

static int run(j39_instance *program)
{
	const j39_host host = {sizeof host, NULL, order_opens, order_reads, order_writes, order_closes, order_allocates, order_resizes, order_releases};
	const char *const *words = (const char *const *)now.fields + WORDS;
	int status;

	if (chdir(now.fields[FOLDER]) != 0)
		exit(J39_DEVICE);
	now.input = now.sizes[INPUT_FILE] ? system_open(now.fields[INPUT_FILE]) : 0;
	now.error = 0;
	now.done = now.blocks = 0;
	begin_io();
	begin_alloc();
	status = j39_order(program, &host, (int)(now.count - WORDS), words);
	if (now.input > 0)
		system_close(now.input);
	return status;
}

static void answer(j39_instance *program)
{
	read_request();
	write_number((unsigned)run(program));
	write_number(now.blocks);
	write_text(&now.out);
	write_text(&now.errors);
	write_text(&now.told);
	fflush(stdout);
	for (size_t i = 0; i < now.count; i++)
		free(now.fields[i]);
}

/* What j39_map says of a program's file. */
static int mapped(const char *name, j39_instance **program)
{
	char *bytes = malloc(PROGRAM_MOST);
	FILE *file = fopen(name, "rb");
	int status = J39_DEVICE;

	if (bytes && file)
		status = j39_map(bytes, fread(bytes, 1, PROGRAM_MOST, file), NULL, program);
	if (file)
		fclose(file);
	free(bytes);
	return status;
}

int main(int argc, char **argv)
{
	j39_instance *program = NULL;
	int status = argc == 2 ? mapped(argv[1], &program) : J39_UNREADABLE;

#ifdef _WIN32
	_setmode(0, _O_BINARY);
	_setmode(1, _O_BINARY);
#endif
	write_number((unsigned)status);
	fflush(stdout);
	while (program)
		answer(program);
	return 1;
}
