/* Refuses one allocation of a process: the one whose number, from 1, is in REFUSE; with a '-' after the number, all from there on.
   At the end it writes to standard error how many there were. To be preloaded. */
#define _GNU_SOURCE
#include <errno.h>
#include <limits.h>
#include <stddef.h>
#include <stdio.h>
#include <stdlib.h>
#include <sys/syscall.h>
#include <unistd.h>

void *__libc_malloc(size_t size);
void *__libc_calloc(size_t count, size_t size);
void *__libc_realloc(void *old, size_t size);
void *__libc_memalign(size_t align, size_t size);

static long number;

static int is_refused(void)
{
	static long first = -1, last;

	if (first < 0) {
		const char *text = getenv("REFUSE");
		char *end = "";
		first = text ? strtol(text, &end, 10) : 0;
		last = first && *end == '-' ? LONG_MAX : first;
	}
	number++;
	if (number < first || number > last)
		return 0;
	errno = ENOMEM;
	return 1;
}

void *malloc(size_t size)
{
	return is_refused() ? NULL : __libc_malloc(size);
}

void *calloc(size_t count, size_t size)
{
	return is_refused() ? NULL : __libc_calloc(count, size);
}

void *realloc(void *old, size_t size)
{
	return is_refused() ? NULL : __libc_realloc(old, size);
}

void *aligned_alloc(size_t align, size_t size)
{
	return is_refused() ? NULL : __libc_memalign(align, size);
}

int posix_memalign(void **out, size_t align, size_t size)
{
	if (is_refused())
		return ENOMEM;
	*out = __libc_memalign(align, size);
	return *out ? 0 : ENOMEM;
}

__attribute__((destructor)) static void tell(void)
{
	char text[24];
	int length = snprintf(text, sizeof text, "%ld\n", number);

	if (write(STDERR_FILENO, text, length) < 0)
		syscall(SYS_exit_group, 5);
}

/* A program that may start threads ends here, without its destructors. */
void _exit(int status)
{
	tell();
	syscall(SYS_exit_group, status);
	__builtin_unreachable();
}
