/* A damaged program file is refused by its digest, and one that isn't compared is never mapped beyond its bytes. */

#include "check.h"

#include "digest.h"

/* Digests of FIPS 180-4's examples, and of bytes that end around a block. */
static void digests(void)
{
	char text[DIGEST_DIGITS + 1], many[1000];

	digest_of("abc", 3, text);
	CHECK(strcmp(text, "ba7816bf8f01cfea414140de5dae2223b00361a396177a9cb410ff61f20015ad") == 0);
	digest_of("abcdbcdecdefdefgefghfghighijhijkijkljklmklmnlmnomnopnopq", 56, text);
	CHECK(strcmp(text, "248d6a61d20638b8e5c026930c3e6039a33ce45964ff2167f6ecedd419db06c1") == 0);
	digest_of("", 0, text);
	CHECK(strcmp(text, "e3b0c44298fc1c149afbf4c8996fb92427ae41e4649b934ca495991b7852b855") == 0);
	memset(many, 'a', sizeof many);
	digest_of(many, sizeof many, text);
	CHECK(strcmp(text, "41edece42d63e8d9bf515a9ba6932e1c20cbc9f5a5d134645adb5db1b9737ea3") == 0);
}

static void refused(unsigned char *program, size_t size)
{
	j39_instance *it;
	size_t places[] = {0, 18, 1000, size / 2, size - 1};

	CHECK(j39_map(program, size, j39_digest(), &it) == J39_DONE && it);
	j39_free(it);
	for (size_t i = 0; i < sizeof places / sizeof *places; i++) {
		program[places[i]] ^= 1;
		CHECK(j39_map(program, size, j39_digest(), &it) == J39_OTHER && !it);
		program[places[i]] ^= 1;
	}
	CHECK(j39_map(program, size - 1, j39_digest(), &it) == J39_OTHER && !it);
	CHECK(j39_map(program, 0, j39_digest(), &it) == J39_OTHER && !it);
	CHECK(j39_map(program, size, "", &it) == J39_OTHER && !it);
}

/* Without a digest: heads are cut, and each byte of the tables replaced; what is mapped isn't run. */
static void mapped(const unsigned char *program, size_t size)
{
	static const unsigned char BYTES[] = {0x00, 0x7f, 0xff};
	unsigned char *copy = malloc(size);
	j39_instance *it;
	int status, others = 0;

	for (size_t cut = 0; cut < size; cut += 1 + cut / 8) {
		/* a block of its own, so that a read behind its end is seen */
		unsigned char *part = malloc(cut + 1);

		memcpy(part, program, cut);
		CHECK(j39_map(part, cut, NULL, &it) == J39_NO_PROGRAM && !it);
		free(part);
	}
	memcpy(copy, program, size);
	for (size_t at = 0; at < 0x1400; at++)
		for (size_t i = 0; i < sizeof BYTES; i++) {
			copy[at] = BYTES[i];
			status = j39_map(copy, size, NULL, &it);
			others += status != J39_DONE;
			CHECK(status == J39_DONE ? it != NULL : status == J39_NO_PROGRAM && !it);
			j39_free(it);
			copy[at] = program[at];
		}
	CHECK(others > 1000);
	free(copy);
}

int main(int argc, char **argv)
{
	size_t size = 0;
	unsigned char *program = argc == 3 ? (unsigned char *)content_of(".", argv[2], &size) : NULL;

	CHECK(program && size > 100000);
	digests();
	if (program) {
		refused(program, size);
		mapped(program, size);
	}
	free(program);
	return ended("damage");
}
