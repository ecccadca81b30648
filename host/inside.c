/* The program inside the library. */

#include "j39plan.h"

#include "inside.h"

extern const unsigned char j39_inside[], j39_inside_end[];

const char *j39_digest(void)
{
	return INSIDE_SHA256;
}

j39_instance *j39_new(void)
{
	j39_instance *made;

	j39_map(j39_inside, (size_t)(j39_inside_end - j39_inside), INSIDE_SHA256, &made);
	return made;
}
