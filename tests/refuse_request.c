/* Loaded into a program before its libraries (LD_PRELOAD), refuses one of its requests for memory: the one of the number
   REFUSED_REQUEST, from 1; and writes how many requests there were into the file REQUESTS_FILE at the end. */
#include <errno.h>
#include <stddef.h>
#include <stdio.h>
#include <stdlib.h>

void *__libc_malloc(size_t size);
void *__libc_calloc(size_t count, size_t size);
void *__libc_realloc(void *memory, size_t size);

static unsigned long requests;
static unsigned long refused;

__attribute__((constructor)) static void begin(void)
{
	const char *number = getenv("REFUSED_REQUEST");

	refused = number ? strtoul(number, NULL, 10) : 0;
	requests = 0;
}

__attribute__((destructor)) static void end(void)
{
	unsigned long count = requests;
	const char *name = getenv("REQUESTS_FILE");
	FILE *file = name ? fopen(name, "w") : NULL;

	if (file) {
		fprintf(file, "%lu\n", count);
		fclose(file);
	}
}

static int is_refused(void)
{
	requests++;
	if (requests != refused)
		return 0;
	errno = ENOMEM;
	return 1;
}

void *malloc(size_t size)
{
	return is_refused() ? NULL : __libc_malloc(size);
}

void *calloc(size_t count, size_t size)
{
	return is_refused() ? NULL : __libc_calloc(count, size);
}

void *realloc(void *memory, size_t size)
{
	return is_refused() ? NULL : __libc_realloc(memory, size);
}
