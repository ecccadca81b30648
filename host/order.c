/* Runs an order on a thread of its own. */

#include "order.h"

#include "calls.h"
#include "instance.h"

#include <stdlib.h>
#include <string.h>

static char NAME[] = "j39plan";

/* Calls what the program wants called before its main. */
static void initialize(const image *it, int count, char **words, char **none)
{
	if (it->init)
		((main_function *)(uintptr_t)(it->base + it->init))(count, words, none);
	for (size_t i = 0; i < it->init_count; i++) {
		uint64_t at;

		memcpy(&at, it->base + it->init_array + i * sizeof at, sizeof at);
		if (at - (uintptr_t)it->base < it->size)
			((main_function *)(uintptr_t)at)(count, words, none);
	}
}

static void run(void *context)
{
	order *it = context;
	image *program = &it->instance->program;
	asked calls = {it->host, 0, {0}};
	char *none[] = {NULL};
	main_function *main;

	calls_go_to(&calls);
	image_begin(program);
	initialize(program, it->count + 1, it->all_words, none);
	main = enter(program->base + program->entry);
	it->status = main(it->count + 1, it->all_words, none);
	calls_go_to(NULL);
}

static char **named(int count, const char *const *words)
{
	char **all = count < 0 ? NULL : malloc(((size_t)count + 2) * sizeof *all);

	if (!all)
		return NULL;
	all[0] = NAME;
	for (int i = 0; i < count; i++)
		all[i + 1] = (char *)(uintptr_t)words[i];
	all[count + 1] = NULL;
	return all;
}

int order_start(order *it, void (*ended)(void *context))
{
	if (it->instance->is_busy)
		return J39_BUSY;
	it->all_words = named(it->count, it->words);
	it->instance->is_busy = 1; /* before the thread is there, whose callbacks may give orders */
	it->thread = it->all_words ? thread_start(run, ended, it) : NULL;
	if (!it->thread) {
		it->instance->is_busy = 0;
		free(it->all_words);
		return J39_MEMORY;
	}
	return 0;
}

int order_join(order *it)
{
	thread_join(it->thread);
	free(it->all_words);
	instance_rests(it->instance);
	return it->status;
}

int j39_order(j39_instance *instance, const j39_host *host, int count, const char *const *words)
{
	order it = {.instance = instance, .host = host, .count = count, .words = words};
	int status = order_start(&it, NULL);

	return status ? status : order_join(&it);
}
