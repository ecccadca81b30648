/* What the tests share: a count of what isn't as it should be, files, and comparing texts. A test is called with the folder of the examples and
   the stored program. */

#ifndef J39_CHECK_H
#define J39_CHECK_H

#include <j39plan.h>

#include <stdio.h>
#include <stdlib.h>
#include <string.h>

static int faults, checks;

#define CHECK(is_well) check((is_well) != 0, #is_well, __FILE__, __LINE__)

static inline void check(int is_well, const char *what, const char *file, int line)
{
	checks++;
	if (is_well)
		return;
	faults++;
	fprintf(stderr, "%s:%d: not so: %s\n", file, line, what);
}

static inline int is_text(const j39_text *text, const char *wanted)
{
	return text->size == strlen(wanted) && (!text->size || memcmp(text->bytes, wanted, text->size) == 0);
}

static inline int is_same(const j39_text *one, const j39_text *other)
{
	return one->size == other->size && (!one->size || memcmp(one->bytes, other->bytes, one->size) == 0);
}

/* What a file of a folder holds; the test ends where it can't be read. */
static inline char *content_of(const char *folder, const char *name, size_t *size)
{
	char path[4096];
	FILE *file;
	char *bytes = malloc(4 << 20);

	snprintf(path, sizeof path, "%s/%s", folder, name);
	file = fopen(path, "rb");
	if (!file || !bytes) {
		fprintf(stderr, "%s can't be read\n", path);
		exit(2);
	}
	*size = fread(bytes, 1, 4 << 20, file);
	fclose(file);
	return bytes;
}

static inline j39_file file_of(const char *folder, const char *name)
{
	j39_file it = {name, NULL, 0};

	it.bytes = content_of(folder, name, &it.size);
	return it;
}

static inline int ended(const char *name)
{
	printf("%s: %d passed, %d failed\n", name, checks - faults, faults);
	return faults != 0;
}

#endif
