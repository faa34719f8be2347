/* Preloaded into a program, cuts in pieces what it reads of standard input and of connections, and what it writes to standard
   output and to connections. A read brings as many bytes as READ_PIECE says, at most; a write takes as many as WRITE_PIECE says,
   none where that is 0. Before what is there standard input brings NEWLINES newlines, one with each read. Behind READS reads one
   fails; behind WRITES writes one fails, or takes nothing where NOTHING is 1. What is no number, or isn't there, changes nothing. */
#define _GNU_SOURCE
#include <dlfcn.h>
#include <errno.h>
#include <stdlib.h>
#include <sys/socket.h>
#include <unistd.h>

static size_t read_piece = -1, write_piece = -1, newlines, reads = -1, writes = -1, nothing;

/* The number of that name in the environment, or the other one. */
static size_t number(const char *name, size_t other)
{
    const char *text = getenv(name);
    char *end;
    size_t found = text ? strtoul(text, &end, 10) : 0;
    return text && end != text ? found : other;
}

__attribute__((constructor)) static void begin(void)
{
    read_piece = number("READ_PIECE", read_piece);
    write_piece = number("WRITE_PIECE", write_piece);
    newlines = number("NEWLINES", 0);
    reads = number("READS", reads);
    writes = number("WRITES", writes);
    nothing = number("NOTHING", 0);
}

/* What a read or a write gives that fails. */
static ssize_t failed(void)
{
    errno = EIO;
    return -1;
}

/* What a write gives that is refused. */
static ssize_t refused(void)
{
    return nothing ? 0 : failed();
}

static size_t least(size_t first, size_t second)
{
    return first < second ? first : second;
}

ssize_t read(int file, void *bytes, size_t size)
{
    static ssize_t (*next)(int, void *, size_t);
    if (file == STDIN_FILENO && newlines > 0) {
        newlines--;
        *(char *)bytes = '\n';
        return 1;
    }
    if (file == STDIN_FILENO && reads-- == 0)
        return failed();
    if (!next)
        next = (ssize_t (*)(int, void *, size_t))dlsym(RTLD_NEXT, "read");
    return next(file, bytes, file == STDIN_FILENO ? least(size, read_piece) : size);
}

ssize_t recv(int file, void *bytes, size_t size, int flags)
{
    static ssize_t (*next)(int, void *, size_t, int);
    if (reads-- == 0)
        return failed();
    if (!next)
        next = (ssize_t (*)(int, void *, size_t, int))dlsym(RTLD_NEXT, "recv");
    return next(file, bytes, least(size, read_piece), flags);
}

ssize_t write(int file, const void *bytes, size_t size)
{
    static ssize_t (*next)(int, const void *, size_t);
    if (file == STDOUT_FILENO && write_piece == 0)
        return 0;
    if (file == STDOUT_FILENO && writes-- == 0)
        return refused();
    if (!next)
        next = (ssize_t (*)(int, const void *, size_t))dlsym(RTLD_NEXT, "write");
    return next(file, bytes, file == STDOUT_FILENO ? least(size, write_piece) : size);
}

ssize_t send(int file, const void *bytes, size_t size, int flags)
{
    static ssize_t (*next)(int, const void *, size_t, int);
    if (write_piece == 0)
        return 0;
    if (writes-- == 0)
        return refused();
    if (!next)
        next = (ssize_t (*)(int, const void *, size_t, int))dlsym(RTLD_NEXT, "send");
    return next(file, bytes, least(size, write_piece), flags);
}
