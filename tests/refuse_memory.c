/*
 * Refuses one allocation of the program that loads it before the C library
 * (LD_PRELOAD): the one with the number in the variable REFUSED, counted from 1,
 * none where that is 0. At the end it writes how many there were to the file in
 * ALLOCATIONS. Only calls of the program itself count, not those that the C
 * library makes for its own calls. The program's children do not load it.
 */
#define _GNU_SOURCE
#include <dlfcn.h>
#include <errno.h>
#include <fcntl.h>
#include <stdio.h>
#include <stdlib.h>
#include <string.h>
#include <sys/auxv.h>
#include <unistd.h>

void *__libc_malloc(size_t size);
void *__libc_realloc(void *old, size_t size);

static unsigned long refused, made;
static char counts[4096];
static void *program;

/* The image that an address is in. */
static void *image_of(void *address)
{
	Dl_info info;

	return dladdr(address, &info) ? info.dli_fbase : NULL;
}

__attribute__((constructor)) static void begin(void)
{
	const char *number = getenv("REFUSED"), *path = getenv("ALLOCATIONS");

	refused = number ? strtoul(number, NULL, 10) : 0;
	if (path && strlen(path) < sizeof counts)
		strcpy(counts, path);
	program = image_of((void *)getauxval(AT_ENTRY));
	unsetenv("LD_PRELOAD");
}

__attribute__((destructor)) static void end(void)
{
	char text[32];
	int length = snprintf(text, sizeof text, "%lu\n", made);
	int to = counts[0] ? open(counts, O_WRONLY | O_CREAT | O_TRUNC, 0600) : -1;

	if (to < 0 || write(to, text, length) != length)
		_exit(99);
}

/* Whether a call from this address is the one that is refused. */
static int is_refused(void *caller)
{
	return program && image_of(caller) == program && ++made == refused;
}

void *malloc(size_t size)
{
	if (!is_refused(__builtin_return_address(0)))
		return __libc_malloc(size);
	errno = ENOMEM;
	return NULL;
}

void *realloc(void *old, size_t size)
{
	if (!is_refused(__builtin_return_address(0)))
		return __libc_realloc(old, size);
	errno = ENOMEM;
	return NULL;
}
