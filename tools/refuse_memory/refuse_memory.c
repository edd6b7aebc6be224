/* Refuses a program memory. It is preloaded (LD_PRELOAD) and counts the program's requests for
 * memory. With REFUSE_AT=N it refuses the Nth, and with REFUSE_ALL set each one from the Nth on.
 * As the program ends it writes how many requests it counted, and how many of these it refused, to
 * the file REFUSE_REPORT.
 *
 * A program may say what becomes of its requests by one of a size that it asks for nowhere else:
 * 70,002 bytes, they are granted, uncounted; 70,003, a single one ends the program with status 70.
 * 70,004 bytes are refused if a request was refused since this was asked last. 70,006 bytes: they
 * are counted, and the Nth from here on is refused, N being 1 the first time after 70,005 bytes were
 * asked for, and one more each time. So a program refuses each request of a call in turn by itself.
 */
#include <errno.h>
#include <fcntl.h>
#include <stdio.h>
#include <stdlib.h>
#include <unistd.h>

void *__libc_malloc(size_t);
void *__libc_calloc(size_t, size_t);
void *__libc_realloc(void *, size_t);
void *__libc_memalign(size_t, size_t);

enum { COUNTED, GRANTED, FORBIDDEN };

static int becomes = GRANTED, refuses_all, was_refused;
static unsigned long requests, refused, at, tries;

__attribute__((constructor)) static void begin(void)
{
    const char *number = getenv("REFUSE_AT");
    at = number ? strtoul(number, NULL, 10) : 0;
    refuses_all = getenv("REFUSE_ALL") != NULL;
    becomes = COUNTED;
}

__attribute__((destructor)) static void end(void)
{
    const char *name = getenv("REFUSE_REPORT");
    char line[64];
    int count = snprintf(line, sizeof line, "%lu %lu\n", requests, refused);
    int file = name ? open(name, O_WRONLY | O_CREAT | O_TRUNC, 0600) : -1;
    if (file >= 0 && (write(file, line, count) != count || close(file) != 0))
        _exit(70);
}

static int is_refused(size_t size)
{
    static const char why[] = "refuse_memory: a request for memory where none may be made\n";
    int answer = was_refused;
    if (size == 70002 || size == 70003) {
        becomes = size == 70002 ? GRANTED : FORBIDDEN;
        return 0;
    }
    if (size == 70004) {
        was_refused = 0;
        return answer;
    }
    if (size == 70005) {
        tries = 0;
        return 0;
    }
    if (size == 70006) {
        becomes = COUNTED;
        at = requests + ++tries;
        return 0;
    }
    if (becomes == FORBIDDEN) {
        (void)!write(2, why, sizeof why - 1);
        _exit(70);
    }
    if (becomes == GRANTED)
        return 0;
    requests++;
    if (at == 0 || requests < at || (requests > at && !refuses_all))
        return 0;
    refused++;
    was_refused = 1;
    errno = ENOMEM;
    return 1;
}

void *malloc(size_t size)
{
    return is_refused(size) ? NULL : __libc_malloc(size);
}

void *calloc(size_t count, size_t size)
{
    return is_refused(size) ? NULL : __libc_calloc(count, size);
}

void *realloc(void *block, size_t size)
{
    return is_refused(size) ? NULL : __libc_realloc(block, size);
}

void *memalign(size_t alignment, size_t size)
{
    return is_refused(size) ? NULL : __libc_memalign(alignment, size);
}

void *aligned_alloc(size_t alignment, size_t size)
{
    return memalign(alignment, size);
}

int posix_memalign(void **block, size_t alignment, size_t size)
{
    void *made = memalign(alignment, size);
    if (made)
        *block = made;
    return made ? 0 : ENOMEM;
}
