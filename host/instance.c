/* An instance: one copy of a program whose digest was looked at. */

#include "instance.h"

#include "digest.h"
#include "order.h"

#include <stdlib.h>
#include <string.h>

int j39_interface(void)
{
	return J39_INTERFACE;
}

int j39_map(const void *program, size_t size, const char *sha256, j39_instance **made)
{
	char digest[DIGEST_DIGITS + 1];
	j39_instance *it;
	int status;

	*made = NULL;
	if (sha256) {
		digest_of(program, size, digest);
		if (strcmp(digest, sha256) != 0)
			return J39_OTHER;
	}
	it = calloc(1, sizeof *it);
	if (!it)
		return J39_MEMORY;
	status = image_map(&it->program, program, size);
	if (status) {
		free(it);
		return status;
	}
	*made = it;
	return J39_DONE;
}

static void end(j39_instance *it)
{
	image_unmap(&it->program);
	free(it);
}

void j39_free(j39_instance *it)
{
	if (!it)
		return;
	if (it->sessions || it->is_busy)
		it->is_freed = 1;
	else
		end(it);
}

void instance_rests(j39_instance *it)
{
	it->is_busy = 0;
	if (!it->sessions && it->is_freed)
		end(it);
}

void instance_entered(j39_instance *it)
{
	it->sessions++;
}

void instance_left(j39_instance *it)
{
	it->sessions--;
	if (!it->sessions && it->is_freed)
		end(it);
}
