/* The sixteen functions of the C library that the program calls, over the callbacks of a host. */

#ifndef J39_CALLS_H
#define J39_CALLS_H

#include "j39plan.h"

/* The program keeps the convention of Linux on Windows, too. */
#define LINUX_CALL __attribute__((sysv_abi))

/* What the order of this thread asks. */
typedef struct {
	const j39_host *host;
	int error;
	uint32_t features[8];
} asked;

/* Has the calls of this thread go to an order's host; NULL: the order has ended. */
void calls_go_to(asked *order);

/* A function by its name; NULL: there is none. */
const void *call_of(const char *name);

/* enter.S: the program's entry up to its call of __libc_start_main, which gives the program's main. */
typedef LINUX_CALL int main_function(int count, char **words, char **environment);
LINUX_CALL main_function *enter(const void *entry);
LINUX_CALL int enter_back(void);

#endif
