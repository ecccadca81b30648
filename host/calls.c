/* The functions that the program calls. They run on the order's own thread, which has one order in its life. */

#include "calls.h"

#include <cpuid.h>
#include <stdlib.h>
#include <string.h>

/* Errors as Linux numbers them, which the program reads. */
enum { LINUX_ENOMEM = 12, LINUX_EACCES = 13, LINUX_ESPIPE = 29 };
/* What the program asks of the processor, by the numbers of glibc: what leaf 1 and leaf 0x80000001 say in ecx. */
enum { BASIC = 0, EXTENDED = 2, ACTIVE_ECX = 6 };
enum { FEATURES = 0x982201, EXTENDED_FEATURES = 1 };

static _Thread_local asked *now;

void calls_go_to(asked *order)
{
	now = order;
}

static LINUX_CALL int *errno_place(void)
{
	return &now->error;
}

static LINUX_CALL void *no_signal(int number, void *handler)
{
	(void)number;
	(void)handler;
	return NULL;
}

static void *given(void *block)
{
	if (!block)
		now->error = LINUX_ENOMEM;
	return block;
}

static LINUX_CALL void *allocate(size_t count)
{
	return given(now->host->allocate ? now->host->allocate(now->host->context, count) : malloc(count));
}

static LINUX_CALL void *resize(void *block, size_t count)
{
	return given(now->host->resize ? now->host->resize(now->host->context, block, count) : realloc(block, count));
}

static LINUX_CALL void release(void *block)
{
	if (now->host->release)
		now->host->release(now->host->context, block);
	else
		free(block);
}

static LINUX_CALL void *copy(void *to, const void *from, size_t count)
{
	return memcpy(to, from, count);
}

static LINUX_CALL void *move(void *to, const void *from, size_t count)
{
	return memmove(to, from, count);
}

static LINUX_CALL void *fill(void *to, int byte, size_t count)
{
	return memset(to, byte, count);
}

/* What a callback answers, of which a negative number is an error. */
static int64_t answered(int64_t number)
{
	if (number >= 0)
		return number;
	now->error = (int)-number;
	return -1;
}

static LINUX_CALL int64_t read_file(int file, void *to, size_t room)
{
	return answered(now->host->read(now->host->context, file, to, room));
}

static LINUX_CALL int64_t write_file(int file, const void *from, size_t count)
{
	return answered(now->host->write(now->host->context, file, from, count));
}

/* The flags' last bits are what is wanted beside reading. */
static LINUX_CALL int open_file(const char *name, int flags, ...)
{
	return (int)answered(flags & 3 ? -LINUX_EACCES : now->host->open(now->host->context, name));
}

static LINUX_CALL int close_file(int file)
{
	now->host->close(now->host->context, file);
	return 0;
}

static LINUX_CALL int64_t seek(int file, int64_t to, int whence)
{
	(void)file;
	(void)to;
	(void)whence;
	return answered(-LINUX_ESPIPE);
}

/* A leaf as glibc has it: four words, and four of what is active. The features that the program wants need nothing of the system. */
static LINUX_CALL const void *processor(unsigned leaf)
{
	unsigned eax, ebx, ecx = 0, edx;

	memset(now->features, 0, sizeof now->features);
	if (leaf == BASIC && __get_cpuid(1, &eax, &ebx, &ecx, &edx))
		now->features[ACTIVE_ECX] = ecx & FEATURES;
	if (leaf == EXTENDED && __get_cpuid(0x80000001, &eax, &ebx, &ecx, &edx))
		now->features[ACTIVE_ECX] = ecx & EXTENDED_FEATURES;
	return now->features;
}

typedef LINUX_CALL void any_function(void);

static const struct {
	const char *name;
	any_function *call;
} CALLS[] = {
	{"__errno_location", (any_function *)errno_place},
	{"__libc_start_main", (any_function *)enter_back},
	{"__sysv_signal", (any_function *)no_signal},
	{"__write", (any_function *)write_file},
	{"__x86_get_cpuid_feature_leaf", (any_function *)processor},
	{"close", (any_function *)close_file},
	{"free", (any_function *)release},
	{"lseek", (any_function *)seek},
	{"malloc", (any_function *)allocate},
	{"memcpy", (any_function *)copy},
	{"memmove", (any_function *)move},
	{"memset", (any_function *)fill},
	{"open", (any_function *)open_file},
	{"read", (any_function *)read_file},
	{"realloc", (any_function *)resize},
	{"write", (any_function *)write_file},
};

const void *call_of(const char *name)
{
	for (size_t i = 0; i < sizeof CALLS / sizeof *CALLS; i++)
		if (strcmp(CALLS[i].name, name) == 0)
			return (const void *)(uintptr_t)CALLS[i].call;
	return NULL;
}
