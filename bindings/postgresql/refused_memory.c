/* Refuses requests of the library for memory, for tests/postgres. The extension is linked with it and with the options
 * --wrap=malloc and --wrap=realloc of the linker.
 *
 * The file that REFUSE_FILE names has two numbers: a run, and how many requests of a process are granted in this run
 * before the others are refused. Without the file, none is refused. */
#include <stdbool.h>
#include <stdio.h>
#include <stdlib.h>

void *__real_malloc(size_t size);
void *__real_realloc(void *memory, size_t size);
void *__wrap_malloc(size_t size);
void *__wrap_realloc(void *memory, size_t size);

static long last_run, left;

static bool is_refused(void)
{
    const char *path = getenv("REFUSE_FILE");
    FILE *file = path ? fopen(path, "r") : NULL;
    long run, granted;
    bool is_read = file != NULL && fscanf(file, "%ld %ld", &run, &granted) == 2;
    if (file != NULL)
        fclose(file);
    if (!is_read)
        return false;
    if (run != last_run)
        left = granted;
    last_run = run;
    return left == 0 || left-- == 0;
}

void *__wrap_malloc(size_t size)
{
    return is_refused() ? NULL : __real_malloc(size);
}

void *__wrap_realloc(void *memory, size_t size)
{
    return is_refused() ? NULL : __real_realloc(memory, size);
}
