/* j39plan.exe: runs the stored program that lies beside it over this system's files, where its digest is the one of its record. Words and names are
   UTF-8; standard input, output and error are binary. Status 69: the program isn't there, or can't be run here. */

#include "j39plan.h"
#include "system_files.h"

#include <fcntl.h>
#include <io.h>
#include <stdio.h>
#include <stdlib.h>
#include <string.h>
#include <windows.h>

enum { MISSING = 69, DIGITS = 64, NAME_MOST = 32768 };

#define PROGRAM L"j39plan-linux-x86_64"

static int exe_open(void *context, const char *name)
{
	(void)context;
	return is_standard_input(name) ? system_open_input() : system_open(name);
}

static int64_t exe_read(void *context, int file, void *to, size_t room)
{
	(void)context;
	return system_read(file, to, room);
}

static int64_t exe_write(void *context, int file, const void *from, size_t count)
{
	(void)context;
	return system_write(file, from, count);
}

static void exe_close(void *context, int file)
{
	(void)context;
	system_close(file);
}

static int said(const char *why)
{
	fprintf(stderr, "j39plan: %s\n", why);
	return MISSING;
}

/* What a file beside this one holds, and an end; NULL where it can't be read. */
static char *content_of(const wchar_t *name, size_t *size)
{
	static wchar_t path[NAME_MOST + 64];
	DWORD count = GetModuleFileNameW(NULL, path, NAME_MOST);
	wchar_t *folder = count && count < NAME_MOST ? wcsrchr(path, L'\\') : NULL;
	FILE *file;
	char *bytes = NULL;
	long end = -1;

	if (!folder)
		return NULL;
	wcscpy(folder + 1, name);
	file = _wfopen(path, L"rb");
	if (!file)
		return NULL;
	if (fseek(file, 0, SEEK_END) == 0)
		end = ftell(file);
	if (end >= 0)
		bytes = malloc((size_t)end + 1);
	rewind(file);
	*size = bytes ? fread(bytes, 1, (size_t)end, file) : 0;
	fclose(file);
	if (bytes)
		bytes[*size] = 0;
	return bytes;
}

/* The digest that the record tells; NULL where it has none. */
static char *recorded(char *record)
{
	static const char KEY[] = "program ";
	char *at = strncmp(record, KEY, strlen(KEY)) == 0 ? record + strlen(KEY) : NULL;

	if (!at || strspn(at, "0123456789abcdef") != DIGITS)
		return NULL;
	at[DIGITS] = 0;
	return at;
}

/* The words of the command line as UTF-8; NULL: no memory. They are kept to the end. */
static char **words_of(int *count)
{
	wchar_t **wide = CommandLineToArgvW(GetCommandLineW(), count);
	char **words = wide ? calloc((size_t)*count + 1, sizeof *words) : NULL;

	for (int i = 0; words && i < *count; i++) {
		int size = WideCharToMultiByte(CP_UTF8, 0, wide[i], -1, NULL, 0, NULL, NULL);

		words[i] = malloc((size_t)size);
		if (!words[i])
			return NULL;
		WideCharToMultiByte(CP_UTF8, 0, wide[i], -1, words[i], size, NULL, NULL);
	}
	return words;
}

static int run(j39_instance *instance)
{
	const j39_host host = {sizeof host, NULL, exe_open, exe_read, exe_write, exe_close, NULL, NULL, NULL};
	int count;
	char **words = words_of(&count);

	for (int file = 0; file < 3; file++)
		_setmode(file, _O_BINARY);
	return words ? j39_order(instance, &host, count - 1, (const char *const *)words + 1) : J39_MEMORY;
}

int main(void)
{
	size_t size, record_size;
	char *program = content_of(PROGRAM, &size), *record = content_of(PROGRAM L".txt", &record_size), *digest;
	j39_instance *instance;
	int status;

	if (!program || !record)
		return said("j39plan-linux-x86_64 and its record, which j39plan.exe runs, aren't beside it");
	digest = recorded(record);
	if (!digest)
		return said("j39plan-linux-x86_64.txt is no record");
	status = j39_map(program, size, digest, &instance);
	if (status == J39_OTHER)
		return said("j39plan-linux-x86_64 is not the file that was recorded");
	if (status)
		return said(status == J39_MEMORY ? "out of memory" : "j39plan-linux-x86_64 can't be run here");
	status = run(instance);
	j39_free(instance);
	return status;
}
