/* A thread with a stack that nobody else uses, and a baton that two threads hand to each other. */

#ifndef J39_THREADS_H
#define J39_THREADS_H

typedef struct thread thread;
typedef struct baton baton;

enum { STACK = 512 * 1024 };

/* Starts a thread that does the one and then, where there is one, the other. NULL: no memory, or no thread. */
thread *thread_start(void (*body)(void *), void (*ended)(void *), void *context);
/* Waits for its end, and frees it. */
void thread_join(thread *);

/* A baton that a side holds. NULL: no memory. */
baton *baton_new(int side);
void baton_free(baton *);
/* Hands it to a side; waits until a side has it. */
void baton_hand(baton *, int side);
void baton_wait(baton *, int side);

#endif
