/* Makes a program's reads of standard input and writes to standard output short, or fail. It is
 * preloaded (LD_PRELOAD), and reads these variables, each a number:
 *
 *   STREAMS_READ_MOST    a read gives so many bytes at most
 *   STREAMS_READ_FAILS   the read of this number fails, the first being 1
 *   STREAMS_WRITE_MOST   a write takes so many bytes at most
 *   STREAMS_WRITE_FAILS  the write of this number fails
 *   STREAMS_WRITE_ROOM   so many bytes are taken in all, and then a write fails, as if no space
 *                        is left
 *   STREAMS_WRITE_NONE   if this is set, a write that finds no room takes no byte instead of
 *                        failing
 *
 * As the program ends, it writes to the file that STREAMS_REPORT names how many reads there were,
 * how many bytes they gave, how many writes there were, and how many bytes they took.
 */
#include <errno.h>
#include <fcntl.h>
#include <stdio.h>
#include <stdlib.h>
#include <sys/syscall.h>
#include <unistd.h>

/* The program may call the C library's read and write by these names too. */
ssize_t __read(int stream, void *bytes, size_t size);
ssize_t __write(int stream, const void *bytes, size_t size);

static unsigned long reads, given, writes, taken;

/* Returns the number that a variable has, and 0 if it isn't set. */
static unsigned long number_of(const char *name)
{
    const char *text = getenv(name);
    return text ? strtoul(text, NULL, 10) : 0;
}

static size_t at_most(size_t size, unsigned long most)
{
    return most && size > most ? most : size;
}

__attribute__((destructor)) static void report(void)
{
    const char *name = getenv("STREAMS_REPORT");
    char line[128];
    int count = snprintf(line, sizeof line, "%lu %lu %lu %lu\n", reads, given, writes, taken);
    int file = name ? open(name, O_WRONLY | O_CREAT | O_TRUNC, 0600) : -1;
    if (file >= 0 && (syscall(SYS_write, file, line, count) != count || close(file) != 0))
        _exit(70);
}

ssize_t read(int stream, void *bytes, size_t size)
{
    ssize_t count;
    if (stream != STDIN_FILENO)
        return syscall(SYS_read, stream, bytes, size);
    reads++;
    if (reads == number_of("STREAMS_READ_FAILS")) {
        errno = EIO;
        return -1;
    }
    count = syscall(SYS_read, stream, bytes, at_most(size, number_of("STREAMS_READ_MOST")));
    if (count > 0)
        given += count;
    return count;
}

ssize_t write(int stream, const void *bytes, size_t size)
{
    ssize_t count;
    if (stream != STDOUT_FILENO)
        return syscall(SYS_write, stream, bytes, size);
    writes++;
    if (writes == number_of("STREAMS_WRITE_FAILS")) {
        errno = EIO;
        return -1;
    }
    size = at_most(size, number_of("STREAMS_WRITE_MOST"));
    if (getenv("STREAMS_WRITE_ROOM")) {
        unsigned long room = number_of("STREAMS_WRITE_ROOM") - taken;
        if (room == 0 && getenv("STREAMS_WRITE_NONE"))
            return 0;
        if (room == 0) {
            errno = ENOSPC;
            return -1;
        }
        size = at_most(size, room);
    }
    count = syscall(SYS_write, stream, bytes, size);
    if (count > 0)
        taken += count;
    return count;
}

ssize_t __read(int stream, void *bytes, size_t size)
{
    return read(stream, bytes, size);
}

ssize_t __write(int stream, const void *bytes, size_t size)
{
    return write(stream, bytes, size);
}
