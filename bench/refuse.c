/* Stands before the C library's allocation and refuses some of the requests of a process for memory.

   REFUSE_FROM is the number of the first request that is refused, counted from 1; 0 refuses none.
   REFUSE_COUNT is how many are refused from there on; 0 refuses all.
   TOLD names a file to which is written, at the end, how many requests there were and how many of them were refused. */
#include <errno.h>
#include <fcntl.h>
#include <stddef.h>
#include <stdlib.h>
#include <unistd.h>

void *__libc_malloc(size_t size);
void *__libc_calloc(size_t count, size_t size);
void *__libc_realloc(void *block, size_t size);
void *__libc_memalign(size_t alignment, size_t size);

static unsigned long from, count, requests, refused;
static int counts;

static unsigned long number(const char *name)
{
    const char *text = getenv(name);
    return text ? strtoul(text, NULL, 10) : 0;
}

/* What the system asks for before the program begins isn't counted. */
__attribute__((constructor)) static void begin(void)
{
    from = number("REFUSE_FROM");
    count = number("REFUSE_COUNT");
    counts = 1;
}

static void write_number(int file, unsigned long value, char last)
{
    char text[24];
    size_t place = sizeof text;
    text[--place] = last;
    do
        text[--place] = '0' + value % 10;
    while (value /= 10);
    if (write(file, text + place, sizeof text - place) < 0)
        _exit(125);
}

__attribute__((destructor)) static void end(void)
{
    const char *name = getenv("TOLD");
    counts = 0;
    if (!name)
        return;
    int file = open(name, O_WRONLY | O_CREAT | O_TRUNC, 0600);
    if (file < 0)
        _exit(125);
    write_number(file, requests, ' ');
    write_number(file, refused, '\n');
    close(file);
}

/* Whether this request is refused. */
static int is_refused(void)
{
    if (!counts)
        return 0;
    requests++;
    if (from == 0 || requests < from || (count && requests >= from + count))
        return 0;
    refused++;
    errno = ENOMEM;
    return 1;
}

void *malloc(size_t size)
{
    return is_refused() ? NULL : __libc_malloc(size);
}

void *calloc(size_t items, size_t size)
{
    return is_refused() ? NULL : __libc_calloc(items, size);
}

void *realloc(void *block, size_t size)
{
    return is_refused() ? NULL : __libc_realloc(block, size);
}

void *memalign(size_t alignment, size_t size)
{
    return is_refused() ? NULL : __libc_memalign(alignment, size);
}

void *aligned_alloc(size_t alignment, size_t size)
{
    return is_refused() ? NULL : __libc_memalign(alignment, size);
}

int posix_memalign(void **block, size_t alignment, size_t size)
{
    void *made = is_refused() ? NULL : __libc_memalign(alignment, size);
    if (!made)
        return ENOMEM;
    *block = made;
    return 0;
}
