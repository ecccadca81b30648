/* Four instances on four threads say what one says; sessions of two instances turn about. */

#include "check.h"

#include <pthread.h>

#define PLAN "two_units_one_address.toml"
#define LOG "two_units_one_address.drive.log"

enum { THREADS = 4, TIMES = 50 };

static const char *WORDS[] = {"follow", PLAN, LOG};
static j39_file files[2];
static j39_text wanted;

/* Answers how many orders of a thread were as wanted. */
static void *many(void *context)
{
	j39_instance *program = j39_new();
	j39_text errors = {0};
	size_t *same = context;

	for (int i = 0; program && i < TIMES; i++) {
		j39_text out = {0};

		*same += j39_run(program, 3, WORDS, files, 2, &out, &errors) == J39_DONE && is_same(&out, &wanted) && !errors.size;
		j39_text_free(&out);
	}
	j39_free(program);
	return NULL;
}

static void side_by_side(void)
{
	pthread_t threads[THREADS];
	size_t same[THREADS] = {0};

	for (int i = 0; i < THREADS; i++)
		CHECK(pthread_create(&threads[i], NULL, many, &same[i]) == 0);
	for (int i = 0; i < THREADS; i++)
		pthread_join(threads[i], NULL);
	for (int i = 0; i < THREADS; i++)
		CHECK(same[i] == TIMES);
}

static void turn_about(void)
{
	j39_instance *programs[] = {j39_new(), j39_new()};
	j39_session *sessions[2];
	size_t sizes[2] = {0};
	const j39_text *out;

	for (int i = 0; i < 2; i++)
		sessions[i] = j39_begin(programs[i], 3, WORDS, LOG, files, 1);
	for (size_t at = 0; at < files[1].size; at++)
		for (int i = 0; i < 2; i++) {
			CHECK(j39_feed(sessions[i], (const char *)files[1].bytes + at, 1, &out) == J39_GOES_ON);
			CHECK(sizes[i] + out->size <= wanted.size && (!out->size || memcmp(wanted.bytes + sizes[i], out->bytes, out->size) == 0));
			sizes[i] += out->size;
		}
	for (int i = 0; i < 2; i++) {
		CHECK(j39_end(sessions[i], &out) == J39_DONE && sizes[i] + out->size == wanted.size);
		j39_drop(sessions[i]);
		j39_free(programs[i]);
	}
}

int main(int argc, char **argv)
{
	j39_instance *program = argc == 3 ? j39_new() : NULL;
	j39_text errors = {0};

	CHECK(program);
	if (program) {
		files[0] = file_of(argv[1], PLAN);
		files[1] = file_of(argv[1], LOG);
		CHECK(j39_run(program, 3, WORDS, files, 2, &wanted, &errors) == J39_DONE && wanted.size > 100);
		side_by_side();
		turn_about();
		free((void *)files[0].bytes);
		free((void *)files[1].bytes);
	}
	j39_text_free(&wanted);
	j39_free(program);
	return ended("threads");
}
