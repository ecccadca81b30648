/* j39plan inside another program: the proved program's own machine code, mapped into this process. It runs an order (the words of a command
   line without the program's name) over files in memory, over a session that is fed in pieces, over the system's files, or over the caller's
   own calls, and answers with the program's text, byte by byte.

   Statuses   A call that runs an order answers the program's exit status, or a negative number of `j39_status`. It tells nothing elsewhere.
   Ownership  Whoever makes a thing frees it: j39_new and j39_free, j39_begin and j39_drop, a text by j39_text_free. Words, names and bytes stay
              the caller's; a session reads them until it is dropped. A session's text is the session's, until its next call.
   Threads    There is no global state. An instance with its session is for one thread at a time, two instances for two. An order runs on a
              thread of its own, with all signals blocked, and the call waits for it; that thread's stack (512 KiB, a guard page below it)
              is used by nothing else, since the code keeps data below its stack pointer. No call may be made from a signal handler, nor may a
              session go on in a process that was forked from its own.
   Not used   No clock, no environment, no locale, no file beside those that the words name.

   What C owes, which nothing checks: each pointer holds as many bytes as is said, and texts begin as {0}. */

#ifndef J39PLAN_H
#define J39PLAN_H

#include <stddef.h>
#include <stdint.h>

#ifdef __cplusplus
extern "C" {
#endif

#if defined(_WIN32) && defined(J39_SHARED)
#define J39_API __declspec(dllexport)
#elif defined(__GNUC__)
#define J39_API __attribute__((visibility("default")))
#else
#define J39_API
#endif

/* Grows where a struct or a status changes. */
#define J39_INTERFACE 1

enum j39_status {
	/* of the program (README has all its exit statuses) */
	J39_DONE = 0,
	J39_FINDINGS = 1,   /* findings, or refused */
	J39_UNREADABLE = 2, /* unreadable, or too long */
	J39_MEMORY = 3,     /* no memory, or no thread: what was written is a part */
	J39_DEVICE = 4,
	/* of a call */
	J39_GOES_ON = -1,   /* a session waits for more */
	J39_BUSY = -2,      /* the instance has an order that hasn't ended */
	J39_NO_PROGRAM = -3, /* no program that can be mapped here */
	J39_OTHER = -4      /* a program of another digest */
};

typedef struct j39_instance j39_instance; /* one copy of the program: 1.2 MB */
typedef struct j39_session j39_session;   /* an order whose input comes in pieces */

typedef struct j39_file {
	const char *name;
	const void *bytes;
	size_t size;
} j39_file;

typedef struct j39_text {
	char *bytes;
	size_t size, room;
} j39_text;

/* ---- an instance ---- */

/* The interface that the library was built with, and the SHA-256 of the program inside it, as 64 hex digits. */
J39_API int j39_interface(void);
J39_API const char *j39_digest(void);

/* A copy of the program inside the library, whose digest is compared. NULL: no memory, or the library is damaged. */
J39_API j39_instance *j39_new(void);

/* A copy of a stored program, whose file these bytes are (they may go afterwards); with `sha256`, 64 hex digits, its digest has to be that.
   J39_DONE, J39_MEMORY, J39_NO_PROGRAM or J39_OTHER; *made is NULL but of the first. */
J39_API int j39_map(const void *program, size_t size, const char *sha256, j39_instance **made);

/* Frees an instance; one whose order hasn't ended, as in a callback of that, or with a session, is kept until then. NULL is nothing. */
J39_API void j39_free(j39_instance *);

/* Frees the bytes of a text, which is empty then. */
J39_API void j39_text_free(j39_text *);

/* ---- an order ---- */

/* Runs an order over files in memory. What it writes is appended to `out`, and complaints to `err`. The file /dev/stdin is standard input too. */
J39_API int j39_run(j39_instance *, int count, const char *const *words, const j39_file *files, int file_count, j39_text *out, j39_text *err);

/* Runs an order over the system's files; standard input, also by the name /dev/stdin, is empty. Names are UTF-8 on Windows. */
J39_API int j39_run_here(j39_instance *, int count, const char *const *words, j39_text *out, j39_text *err);

/* ---- a session ---- */

/* Begins an order, which reads the file `input` in pieces, and others from memory. NULL: no memory, or the instance is busy. */
J39_API j39_session *j39_begin(j39_instance *, int count, const char *const *words, const char *input, const j39_file *files, int file_count);

/* Feeds a piece; what the order writes of it is in *out. J39_GOES_ON, or the status of an order that has ended and takes no more. */
J39_API int j39_feed(j39_session *, const void *bytes, size_t size, const j39_text **out);

/* Ends the input, and answers the order's status. */
J39_API int j39_end(j39_session *, const j39_text **out);

/* What the order has complained of. */
J39_API const j39_text *j39_complaints(const j39_session *);

/* Frees a session. An order that hasn't ended is told that its input can't be read, ends, and gives its memory back. NULL is nothing. */
J39_API void j39_drop(j39_session *);

/* ---- an order over the caller's calls ---- */

/* What an order asks for, on its own thread. A call that fails answers a negative error of Linux, as -5 (EIO). Files that were opened are 3 and
   up, or what `open` says; 0, 1 and 2 are standard input, output and error. Blocks of memory are aligned to 16; where the three are NULL, the C
   library's are taken. */
typedef struct j39_host {
	size_t size; /* sizeof(j39_host) */
	void *context;
	int (*open)(void *context, const char *name);
	int64_t (*read)(void *context, int file, void *to, size_t room);
	int64_t (*write)(void *context, int file, const void *from, size_t count);
	void (*close)(void *context, int file);
	void *(*allocate)(void *context, size_t count);
	void *(*resize)(void *context, void *block, size_t count);
	void (*release)(void *context, void *block);
} j39_host;

J39_API int j39_order(j39_instance *, const j39_host *, int count, const char *const *words);

#ifdef __cplusplus
}
#endif
#endif
