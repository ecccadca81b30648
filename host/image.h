/* The program's file as it stands in memory: its segments, relocated, with its calls of the C library bound. */

#ifndef J39_IMAGE_H
#define J39_IMAGE_H

#include <stddef.h>
#include <stdint.h>

enum { PAGE = 4096 };

typedef struct {
	unsigned char *base;
	size_t size;
	/* the writable pages, and these as they stood before any order */
	size_t writable, writable_size;
	unsigned char *first;
	/* offsets of code: where it is entered, and what is called before; 0 where there is none */
	size_t entry, init, init_array, init_count;
} image;

/* Maps a file; 0, or J39_MEMORY or J39_NO_PROGRAM, and nothing is kept then. */
int image_map(image *it, const unsigned char *file, size_t size);
void image_unmap(image *it);

/* Has the writable pages as they stood. */
void image_begin(image *it);

#endif
