/* Threads by Windows. The whole stack is committed at its start, so that no page of it is grown in the midst of an order; nothing queues a call to
   an order's thread, and it waits for nothing in an alertable way. */

#include "threads.h"

#include <process.h>
#include <stdlib.h>
#include <windows.h>

struct thread {
	HANDLE id;
	void (*body)(void *), (*ended)(void *);
	void *context;
};

struct baton {
	SRWLOCK lock;
	CONDITION_VARIABLE handed;
	int side;
};

static unsigned __stdcall begun(void *context)
{
	thread *it = context;

	it->body(it->context);
	if (it->ended)
		it->ended(it->context);
	return 0;
}

thread *thread_start(void (*body)(void *), void (*ended)(void *), void *context)
{
	thread *it = malloc(sizeof *it);

	if (!it)
		return NULL;
	it->body = body;
	it->ended = ended;
	it->context = context;
	it->id = (HANDLE)_beginthreadex(NULL, STACK, begun, it, 0, NULL);
	if (it->id)
		return it;
	free(it);
	return NULL;
}

void thread_join(thread *it)
{
	WaitForSingleObject(it->id, INFINITE);
	CloseHandle(it->id);
	free(it);
}

baton *baton_new(int side)
{
	baton *it = calloc(1, sizeof *it);

	if (!it)
		return NULL;
	it->side = side;
	InitializeSRWLock(&it->lock);
	InitializeConditionVariable(&it->handed);
	return it;
}

void baton_free(baton *it)
{
	free(it);
}

void baton_hand(baton *it, int side)
{
	AcquireSRWLockExclusive(&it->lock);
	it->side = side;
	WakeAllConditionVariable(&it->handed);
	ReleaseSRWLockExclusive(&it->lock);
}

void baton_wait(baton *it, int side)
{
	AcquireSRWLockExclusive(&it->lock);
	while (it->side != side)
		SleepConditionVariableSRW(&it->handed, &it->lock, INFINITE, 0);
	ReleaseSRWLockExclusive(&it->lock);
}
