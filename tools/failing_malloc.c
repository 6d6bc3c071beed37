/* Loaded before a program (LD_PRELOAD), lets one of its allocations fail, or that one and all later ones.
   FAIL_IN     the program's first word; in a process with another one nothing fails
   FAIL_AT     the number of the allocation, from 1
   FAIL_LATER  whether all later ones fail too: 0 or 1
   FAIL_MARK   a file that is made once an allocation has failed */
#define _GNU_SOURCE
#include <dlfcn.h>
#include <errno.h>
#include <fcntl.h>
#include <stdlib.h>
#include <string.h>
#include <unistd.h>

static unsigned long at, count;
static int later, begun;

static void *(*next_malloc)(size_t);
static void *(*next_realloc)(void *, size_t);

__attribute__((constructor)) static void begin(int words, char **word) {
    const char *in = getenv("FAIL_IN"), *number = getenv("FAIL_AT"), *all = getenv("FAIL_LATER");
    next_malloc = (void *(*)(size_t))dlsym(RTLD_NEXT, "malloc");
    next_realloc = (void *(*)(void *, size_t))dlsym(RTLD_NEXT, "realloc");
    begun = in && number && words > 1 && strcmp(word[1], in) == 0;
    at = number ? strtoul(number, 0, 10) : 0;
    later = all && *all == '1';
}

static int fails(void) {
    if (!begun) return 0;
    count++;
    if (count != at && !(later && count > at)) return 0;
    const char *mark = getenv("FAIL_MARK");
    if (count == at && mark) close(open(mark, O_WRONLY | O_CREAT, 0600));
    errno = ENOMEM;
    return 1;
}

void *malloc(size_t size) {
    if (!next_malloc) next_malloc = (void *(*)(size_t))dlsym(RTLD_NEXT, "malloc");
    return fails() ? 0 : next_malloc(size);
}

void *realloc(void *old, size_t size) {
    if (!next_realloc) next_realloc = (void *(*)(void *, size_t))dlsym(RTLD_NEXT, "realloc");
    return fails() ? 0 : next_realloc(old, size);
}
