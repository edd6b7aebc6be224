/* Counts the memory of a program. It is preloaded (LD_PRELOAD). As the program ends it writes to
 * the file COUNT_REPORT how many times it asked for memory, and how many bytes it had at most.
 */
#include <fcntl.h>
#include <malloc.h>
#include <stdio.h>
#include <stdlib.h>
#include <unistd.h>

void *__libc_malloc(size_t);
void *__libc_calloc(size_t, size_t);
void *__libc_realloc(void *, size_t);
void *__libc_memalign(size_t, size_t);
void __libc_free(void *);

static unsigned long requests, bytes, most;

__attribute__((destructor)) static void end(void)
{
    const char *name = getenv("COUNT_REPORT");
    char line[64];
    int count = snprintf(line, sizeof line, "%lu %lu\n", requests, most);
    int file = name ? open(name, O_WRONLY | O_CREAT | O_TRUNC, 0600) : -1;
    if (name && (file < 0 || write(file, line, count) != count || close(file) != 0))
        _exit(70);
}

/* Counts a block that was given in place of so many bytes. */
static void *counted(void *block, size_t before)
{
    requests++;
    if (block)
        bytes += malloc_usable_size(block) - before;
    if (bytes > most)
        most = bytes;
    return block;
}

void *malloc(size_t size)
{
    return counted(__libc_malloc(size), 0);
}

void *calloc(size_t count, size_t size)
{
    return counted(__libc_calloc(count, size), 0);
}

void *realloc(void *block, size_t size)
{
    size_t before = block ? malloc_usable_size(block) : 0;
    return counted(__libc_realloc(block, size), before);
}

void *memalign(size_t alignment, size_t size)
{
    return counted(__libc_memalign(alignment, size), 0);
}

void *aligned_alloc(size_t alignment, size_t size)
{
    return memalign(alignment, size);
}

int posix_memalign(void **block, size_t alignment, size_t size)
{
    void *made = memalign(alignment, size);
    if (made)
        *block = made;
    return made ? 0 : 12; /* ENOMEM */
}

void free(void *block)
{
    if (block)
        bytes -= malloc_usable_size(block);
    __libc_free(block);
}
