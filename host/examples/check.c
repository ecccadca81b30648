/* check PLAN: checks a plan that is in memory, and says what was found. */

#include <j39plan.h>

#include <stdio.h>
#include <stdlib.h>

/* What a file holds; NULL where it can't be read. */
static char *content_of(const char *name, size_t *size)
{
	FILE *file = fopen(name, "rb");
	char *bytes = NULL;
	long end = -1;

	if (!file)
		return NULL;
	if (fseek(file, 0, SEEK_END) == 0)
		end = ftell(file);
	if (end >= 0)
		bytes = malloc((size_t)end + 1);
	rewind(file);
	*size = bytes ? fread(bytes, 1, (size_t)end, file) : 0;
	fclose(file);
	return bytes;
}

int main(int argc, char **argv)
{
	const char *words[] = {"check", "plan"};
	j39_file plan = {"plan", NULL, 0};
	j39_text out = {0}, errors = {0};
	j39_instance *program = j39_new();
	int status = J39_MEMORY;

	plan.bytes = argc == 2 ? content_of(argv[1], &plan.size) : NULL;
	if (!plan.bytes) {
		fprintf(stderr, "usage: check PLAN (a file that can be read)\n");
		status = J39_DEVICE;
	} else if (program) {
		status = j39_run(program, 2, words, &plan, 1, &out, &errors);
		fwrite(out.bytes, 1, out.size, stdout);
		fwrite(errors.bytes, 1, errors.size, stderr);
	}
	j39_text_free(&out);
	j39_text_free(&errors);
	j39_free(program);
	free((void *)plan.bytes);
	return status;
}
