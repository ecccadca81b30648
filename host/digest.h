/* SHA-256 (FIPS 180-4). */

#ifndef J39_DIGEST_H
#define J39_DIGEST_H

#include <stddef.h>

enum { DIGEST_DIGITS = 64 };

/* Writes the digest of bytes as hex digits, and an end. */
void digest_of(const void *bytes, size_t size, char text[DIGEST_DIGITS + 1]);

#endif
