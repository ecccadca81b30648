/* follow PLAN < LOG: follows a log as it comes, and writes what is known of each piece at once. */

#include <j39plan.h>

#include <stdio.h>
#include <stdlib.h>

enum { PLAN_MOST = 16777216, PIECE = 65536 };

static int followed(j39_session *session)
{
	static char piece[PIECE];
	const j39_text *out;
	int status = J39_GOES_ON;
	size_t count;

	while (status == J39_GOES_ON && (count = fread(piece, 1, sizeof piece, stdin)) > 0) {
		status = j39_feed(session, piece, count, &out);
		fwrite(out->bytes, 1, out->size, stdout);
	}
	status = j39_end(session, &out);
	fwrite(out->bytes, 1, out->size, stdout);
	out = j39_complaints(session);
	fwrite(out->bytes, 1, out->size, stderr);
	return status;
}

int main(int argc, char **argv)
{
	const char *words[] = {"follow", "plan", "log"};
	FILE *file = argc == 2 ? fopen(argv[1], "rb") : NULL;
	char *bytes = malloc(PLAN_MOST);
	j39_instance *program = j39_new();
	int status = J39_MEMORY;

	if (!file) {
		fprintf(stderr, "usage: follow PLAN < LOG (a file that can be read)\n");
		status = J39_DEVICE;
	} else if (bytes && program) {
		j39_file plan = {"plan", bytes, fread(bytes, 1, PLAN_MOST, file)};
		j39_session *session = j39_begin(program, 3, words, "log", &plan, 1);

		if (session)
			status = followed(session);
		j39_drop(session);
	}
	if (file)
		fclose(file);
	j39_free(program);
	free(bytes);
	return status;
}
