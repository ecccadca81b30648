/* Threads by POSIX. No signal is delivered on an order's thread. */

#define _POSIX_C_SOURCE 200809L
#include "threads.h"

#include <pthread.h>
#include <signal.h>
#include <stdlib.h>

struct thread {
	pthread_t id;
	void (*body)(void *), (*ended)(void *);
	void *context;
};

struct baton {
	pthread_mutex_t lock;
	pthread_cond_t handed;
	int side;
};

static void *begun(void *context)
{
	thread *it = context;

	it->body(it->context);
	if (it->ended)
		it->ended(it->context);
	return NULL;
}

/* The guard below a stack is the system's default, a page at least; the code touches each page of its stack in turn. */
static int created(thread *it)
{
	pthread_attr_t how;
	int fault = pthread_attr_init(&how);

	if (fault)
		return 0;
	fault = pthread_attr_setstacksize(&how, STACK);
	if (!fault)
		fault = pthread_create(&it->id, &how, begun, it);
	pthread_attr_destroy(&how);
	return !fault;
}

thread *thread_start(void (*body)(void *), void (*ended)(void *), void *context)
{
	thread *it = malloc(sizeof *it);
	sigset_t all, before;
	int is_created;

	if (!it)
		return NULL;
	it->body = body;
	it->ended = ended;
	it->context = context;
	sigfillset(&all);
	pthread_sigmask(SIG_BLOCK, &all, &before);
	is_created = created(it);
	pthread_sigmask(SIG_SETMASK, &before, NULL);
	if (is_created)
		return it;
	free(it);
	return NULL;
}

void thread_join(thread *it)
{
	pthread_join(it->id, NULL);
	free(it);
}

baton *baton_new(int side)
{
	baton *it = calloc(1, sizeof *it);

	if (!it)
		return NULL;
	it->side = side;
	pthread_mutex_init(&it->lock, NULL);
	pthread_cond_init(&it->handed, NULL);
	return it;
}

void baton_free(baton *it)
{
	pthread_cond_destroy(&it->handed);
	pthread_mutex_destroy(&it->lock);
	free(it);
}

void baton_hand(baton *it, int side)
{
	pthread_mutex_lock(&it->lock);
	it->side = side;
	pthread_cond_broadcast(&it->handed);
	pthread_mutex_unlock(&it->lock);
}

void baton_wait(baton *it, int side)
{
	pthread_mutex_lock(&it->lock);
	while (it->side != side)
		pthread_cond_wait(&it->handed, &it->lock);
	pthread_mutex_unlock(&it->lock);
}
