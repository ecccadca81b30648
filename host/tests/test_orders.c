/* Orders over files in memory and over the system's files: texts, statuses, complaints. */

#include "check.h"

#define PLAN "first_plan.toml"
#define OK "ok 2 units 1 groups 1 flows\n"
#define FRAME "frame 0CF00400#FFFFFFE02EFFFFFF\npriority 3 pgn 61444 from 0 to all\n"
#define DEVICE "j39plan: device fault\n"
/* How often an order's thread and its caller's race. */
#define RACES 50

static void in_memory(j39_instance *program, const char *examples)
{
	j39_file files[] = {file_of(examples, PLAN), {"/dev/stdin", "0CF00400#FFFFFFE02EFFFFFF", 25}};
	const char *check_plan[] = {"check", PLAN}, *check_missing[] = {"check", "missing"}, *jump[] = {"jump"};
	j39_text out = {0}, errors = {0};

	CHECK(j39_run(program, 2, check_plan, files, 2, &out, &errors) == J39_DONE && is_text(&out, OK) && is_text(&errors, ""));
	CHECK(j39_run(program, 2, check_plan, files, 2, &out, &errors) == J39_DONE && is_text(&out, OK OK));
	j39_text_free(&out);
	CHECK(!out.bytes && !out.size && !out.room);
	CHECK(j39_run(program, 0, NULL, files, 2, &out, &errors) == J39_DONE && is_text(&out, FRAME));
	j39_text_free(&out);
	CHECK(j39_run(program, 2, check_missing, files, 2, &out, &errors) == J39_DEVICE && is_text(&out, "") && is_text(&errors, DEVICE));
	j39_text_free(&errors);
	CHECK(j39_run(program, 1, jump, NULL, 0, &out, &errors) == J39_UNREADABLE && is_text(&errors, "j39plan: bad command line\n"));
	j39_text_free(&errors);
	j39_text_free(&out);
	free((void *)files[0].bytes);
}

static void on_the_system(j39_instance *program, const char *examples)
{
	char name[4096];
	const char *words[] = {"check", name}, *stdin_words[] = {"check", "/dev/stdin"}, *folder[] = {"check", examples};
	j39_text out = {0}, errors = {0};

	snprintf(name, sizeof name, "%s/%s", examples, PLAN);
	CHECK(j39_run_here(program, 2, words, &out, &errors) == J39_DONE && is_text(&out, OK) && is_text(&errors, ""));
	j39_text_free(&out);
	CHECK(j39_run_here(program, 2, stdin_words, &out, &errors) == J39_UNREADABLE && is_text(&out, "refused Missing top key version\n"));
	j39_text_free(&out);
	CHECK(j39_run_here(program, 2, folder, &out, &errors) == J39_DEVICE && is_text(&out, "") && is_text(&errors, DEVICE));
	j39_text_free(&errors);
	strcat(name, ".missing");
	CHECK(j39_run_here(program, 2, words, &out, &errors) == J39_DEVICE && is_text(&errors, DEVICE));
	j39_text_free(&errors);
	j39_text_free(&out);
}

/* An order from within an order of the same instance is refused. */
static int64_t nested(void *context, int file, const void *from, size_t count)
{
	j39_instance *program = *(j39_instance **)context;
	const char *words[] = {"--version"};
	j39_text out = {0}, errors = {0};

	(void)file;
	(void)from;
	CHECK(j39_run(program, 1, words, NULL, 0, &out, &errors) == J39_BUSY && is_text(&out, "") && is_text(&errors, ""));
	CHECK(j39_begin(program, 1, words, "", NULL, 0) == NULL);
	return (int64_t)count;
}

static void while_busy(j39_instance *program)
{
	j39_host host = {sizeof host, &program, NULL, NULL, nested, NULL, NULL, NULL, NULL};
	const char *words[] = {"--version"};
	int before = checks;

	for (int i = 0; i < RACES; i++)
		CHECK(j39_order(program, &host, 1, words) == J39_DONE);
	CHECK(checks >= before + 3 * RACES);
}

/* An instance that is freed by a callback of its own order goes when that has ended. */
static int64_t freeing(void *context, int file, const void *from, size_t count)
{
	j39_instance **program = context;

	(void)file;
	(void)from;
	j39_free(*program);
	*program = NULL;
	return (int64_t)count;
}

static void freed_while_busy(void)
{
	j39_instance *program = j39_new();
	j39_host host = {sizeof host, &program, NULL, NULL, freeing, NULL, NULL, NULL, NULL};
	const char *words[] = {"--version"};

	CHECK(program && j39_order(program, &host, 1, words) == J39_DONE && !program);
}

int main(int argc, char **argv)
{
	j39_instance *program = argc == 3 ? j39_new() : NULL;

	CHECK(program && j39_interface() == J39_INTERFACE && strlen(j39_digest()) == 64);
	if (program) {
		in_memory(program, argv[1]);
		on_the_system(program, argv[1]);
		while_busy(program);
		freed_while_busy();
	}
	j39_free(program);
	return ended("orders");
}
