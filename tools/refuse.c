/* Preloaded into a program, refuses one of its requests for memory, and says so on standard error: the one whose number,
   counted from 1, is in the environment as REFUSE. */
#define _GNU_SOURCE
#include <dlfcn.h>
#include <stdlib.h>
#include <unistd.h>

static unsigned long asked, refused;

/* Whether this request is the one. */
static int is_refused(void)
{
    static const char told[] = "refused\n";
    if (asked == 0) {
        const char *number = getenv("REFUSE");
        refused = number ? strtoul(number, NULL, 10) : 0;
    }
    asked++;
    return asked == refused && write(STDERR_FILENO, told, sizeof told - 1) > 0;
}

void *malloc(size_t size)
{
    static void *(*next)(size_t);
    if (!next)
        next = (void *(*)(size_t))dlsym(RTLD_NEXT, "malloc");
    return is_refused() ? NULL : next(size);
}

void *realloc(void *block, size_t size)
{
    static void *(*next)(void *, size_t);
    if (!next)
        next = (void *(*)(void *, size_t))dlsym(RTLD_NEXT, "realloc");
    return is_refused() ? NULL : next(block, size);
}
