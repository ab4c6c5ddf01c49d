/* A library to be loaded before the C library: it counts a program's requests for memory and refuses one of them.

   REFUSED tells which, from 1; with 0 none is refused. As the program ends, the number of requests is written to the
   file that REQUESTS names. The programs of this repository ask for memory by malloc and realloc alone. */
#include <errno.h>
#include <fcntl.h>
#include <stdatomic.h>
#include <stdio.h>
#include <stdlib.h>
#include <unistd.h>

/* The C library's own calls, by its other names for them. */
extern void *__libc_malloc(size_t size);
extern void *__libc_realloc(void *block, size_t size);

static atomic_ulong requests;
static unsigned long refused;

/* Whether this is the request that is to be refused. */
static int is_refused(void)
{
    return atomic_fetch_add(&requests, 1) + 1 == refused;
}

void *malloc(size_t size)
{
    if (is_refused()) {
        errno = ENOMEM;
        return NULL;
    }
    return __libc_malloc(size);
}

/* A block whose growth is refused stays as it is. */
void *realloc(void *block, size_t size)
{
    if (is_refused()) {
        errno = ENOMEM;
        return NULL;
    }
    return __libc_realloc(block, size);
}

/* What was asked for before the program's first step is not counted. */
__attribute__((constructor)) static void begin(void)
{
    const char *told = getenv("REFUSED");
    atomic_store(&requests, 0);
    refused = told == NULL ? 0 : strtoul(told, NULL, 10);
}

__attribute__((destructor)) static void end(void)
{
    const char *name = getenv("REQUESTS");
    char line[32];
    int length = snprintf(line, sizeof line, "%lu\n", atomic_load(&requests));
    int file = name == NULL ? -1 : open(name, O_WRONLY | O_CREAT | O_TRUNC, 0600);
    if (file < 0 || write(file, line, (size_t)length) != length) {
        _exit(127);
    }
    close(file);
}
