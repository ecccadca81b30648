/* Sessions: in pieces the text is as of the whole, in any order of ends. */

#include "check.h"

#define PLAN "two_units_one_address.toml"
#define LOG "two_units_one_address.drive.log"

static const char *WORDS[] = {"follow", PLAN, LOG};

static int in_pieces(j39_instance *program, const j39_file *files, size_t piece, j39_text *all)
{
	j39_session *session = j39_begin(program, 3, WORDS, LOG, files, 1);
	const j39_text *out;
	int status = J39_GOES_ON;

	CHECK(session);
	for (size_t at = 0; session && at < files[1].size; at += piece) {
		size_t left = files[1].size - at;

		status = j39_feed(session, (const char *)files[1].bytes + at, left < piece ? left : piece, &out);
		CHECK(status == J39_GOES_ON);
		all->bytes = realloc(all->bytes, all->size + out->size + 1);
		memcpy(all->bytes + all->size, out->bytes, out->size);
		all->size += out->size;
	}
	status = j39_end(session, &out);
	all->bytes = realloc(all->bytes, all->size + out->size + 1);
	memcpy(all->bytes + all->size, out->bytes, out->size);
	all->size += out->size;
	CHECK(j39_complaints(session)->size == 0);
	CHECK(j39_end(session, &out) == status && out->size == 0);
	CHECK(j39_feed(session, "x", 1, &out) == status && out->size == 0);
	j39_drop(session);
	return status;
}

static void as_whole(j39_instance *program, const j39_file *files)
{
	static const size_t PIECES[] = {1, 2, 3, 7, 61, 5000, 1 << 20};
	j39_text whole = {0}, errors = {0};
	int status = j39_run(program, 3, WORDS, files, 2, &whole, &errors);

	CHECK(status == J39_DONE && whole.size > 100);
	for (size_t i = 0; i < sizeof PIECES / sizeof *PIECES; i++) {
		j39_text all = {0};

		CHECK(in_pieces(program, files, PIECES[i], &all) == status && is_same(&all, &whole));
		free(all.bytes);
	}
	j39_text_free(&whole);
}

/* A session that is dropped amid; an instance that is freed, and one that is busy, meanwhile. */
static void dropped(const j39_file *files)
{
	const j39_text *out;
	j39_text text = {0}, errors = {0};
	j39_instance *program = j39_new();
	j39_session *session = j39_begin(program, 3, WORDS, LOG, files, 1);
	const char *version[] = {"--version"};

	CHECK(j39_feed(session, files[1].bytes, files[1].size / 2, &out) == J39_GOES_ON);
	CHECK(j39_run(program, 1, version, NULL, 0, &text, &errors) == J39_BUSY && !j39_begin(program, 3, WORDS, LOG, files, 1));
	j39_drop(session);
	CHECK(j39_run(program, 1, version, NULL, 0, &text, &errors) == J39_DONE && is_text(&text, "j39plan 0.1.0\n"));
	j39_text_free(&text);
	session = j39_begin(program, 3, WORDS, LOG, files, 1);
	CHECK(j39_feed(session, files[1].bytes, files[1].size / 2, &out) == J39_GOES_ON);
	j39_free(program);
	CHECK(j39_feed(session, (const char *)files[1].bytes + files[1].size / 2, files[1].size - files[1].size / 2, &out) == J39_GOES_ON);
	CHECK(j39_end(session, &out) == J39_DONE && out->size > 0);
	j39_drop(session);
	program = j39_new();
	session = j39_begin(program, 3, WORDS, LOG, files, 1);
	j39_free(program);
	j39_drop(session);
	j39_drop(NULL);
	j39_free(NULL);
}

/* Orders that end before their input does. */
static void ended_before(j39_instance *program)
{
	j39_file plan = {PLAN, "no plan", 7};
	const j39_text *out;
	j39_session *session = j39_begin(program, 3, WORDS, LOG, &plan, 1);

	CHECK(j39_feed(session, "x", 1, &out) == J39_UNREADABLE && out->size > 8 && memcmp(out->bytes, "refused ", 8) == 0);
	j39_drop(session);
	session = j39_begin(program, 3, WORDS, LOG, NULL, 0);
	CHECK(j39_end(session, &out) == J39_DEVICE && is_text(out, "") && is_text(j39_complaints(session), "j39plan: device fault\n"));
	j39_drop(session);
	session = j39_begin(program, 0, NULL, "/dev/stdin", NULL, 0);
	CHECK(j39_feed(session, "0CF00400#FFFF", 13, &out) == J39_GOES_ON && j39_feed(session, "FFE02EFFFFFF\n", 13, &out) != J39_MEMORY);
	CHECK(j39_end(session, &out) == J39_DONE);
	j39_drop(session);
}

int main(int argc, char **argv)
{
	j39_instance *program = argc == 3 ? j39_new() : NULL;

	CHECK(program);
	if (program) {
		j39_file files[] = {file_of(argv[1], PLAN), file_of(argv[1], LOG)};

		as_whole(program, files);
		dropped(files);
		ended_before(program);
		free((void *)files[0].bytes);
		free((void *)files[1].bytes);
	}
	j39_free(program);
	return ended("sessions");
}
