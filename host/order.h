/* One copy of the program, and an order that it runs. */

#ifndef J39_ORDER_H
#define J39_ORDER_H

#include "image.h"
#include "j39plan.h"
#include "threads.h"

struct j39_instance {
	image program;
	int is_busy;  /* an order hasn't ended */
	int sessions; /* that weren't dropped */
	int is_freed; /* by the caller, while there is such an order or session */
};

typedef struct {
	j39_instance *instance;
	const j39_host *host;
	int count;
	const char *const *words;
	char **all_words; /* with the program's name, and an end */
	int status;
	thread *thread;
} order;

/* Starts an order on a thread of its own: 0, J39_BUSY or J39_MEMORY. `ended` is called there at its end, where it isn't NULL. */
int order_start(order *it, void (*ended)(void *context));
/* Waits for the end of an order's thread, and answers its status. */
int order_join(order *it);

#endif
