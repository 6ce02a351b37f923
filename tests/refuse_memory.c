/* Refuses requests for memory, for tests/memory. It is loaded before the C library, whose allocator it calls.
 *
 * REFUSE_FROM and REFUSE_TO are the numbers of the first and the last refused request, counted from 1; 0 refuses none.
 * If REFUSE_COUNT is the name of a file, the number of requests is written into it at the end. */
#include <errno.h>
#include <fcntl.h>
#include <stddef.h>
#include <stdlib.h>
#include <unistd.h>

void *__libc_malloc(size_t size);
void *__libc_calloc(size_t count, size_t size);
void *__libc_realloc(void *memory, size_t size);
void *__libc_memalign(size_t alignment, size_t size);

static unsigned long requests, from, to;
static int is_read;

static unsigned long number(const char *name)
{
    const char *text = getenv(name);
    unsigned long value = 0;
    while (text && *text >= '0' && *text <= '9')
        value = value * 10 + (unsigned long)(*text++ - '0');
    return value;
}

static int is_refused(void)
{
    if (!is_read) {
        is_read = 1;
        from = number("REFUSE_FROM");
        to = number("REFUSE_TO");
    }
    requests++;
    if (from == 0 || requests < from || requests > to)
        return 0;
    errno = ENOMEM;
    return 1;
}

void *malloc(size_t size)
{
    return is_refused() ? NULL : __libc_malloc(size);
}

void *calloc(size_t count, size_t size)
{
    return is_refused() ? NULL : __libc_calloc(count, size);
}

void *realloc(void *memory, size_t size)
{
    return is_refused() ? NULL : __libc_realloc(memory, size);
}

void *aligned_alloc(size_t alignment, size_t size)
{
    return is_refused() ? NULL : __libc_memalign(alignment, size);
}

int posix_memalign(void **memory, size_t alignment, size_t size)
{
    if (is_refused())
        return ENOMEM;
    *memory = __libc_memalign(alignment, size);
    return *memory ? 0 : ENOMEM;
}

__attribute__((destructor)) static void write_count(void)
{
    const char *name = getenv("REFUSE_COUNT");
    char digits[24];
    size_t at = sizeof digits;
    unsigned long left = requests;
    int file;
    if (!name || (file = open(name, O_WRONLY | O_CREAT | O_TRUNC, 0600)) < 0)
        return;
    do
        digits[--at] = (char)('0' + left % 10);
    while ((left /= 10) > 0);
    if (write(file, digits + at, sizeof digits - at) < 0)
        _exit(125);
    close(file);
}
