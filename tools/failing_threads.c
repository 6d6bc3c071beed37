/* Loaded before a program (LD_PRELOAD), refuses one of its threads, or that one and all later ones.
   FAIL_AT     the number of the thread, from 1, without the one with which the program begins
   FAIL_LATER  whether all later ones are refused too: 0 or 1
   FAIL_MARK   a file that is made once a thread was refused */
#define _GNU_SOURCE
#include <dlfcn.h>
#include <errno.h>
#include <fcntl.h>
#include <pthread.h>
#include <stdatomic.h>
#include <stdlib.h>
#include <unistd.h>

static atomic_ulong count;

static int fails(void) {
    const char *number = getenv("FAIL_AT"), *all = getenv("FAIL_LATER"), *mark = getenv("FAIL_MARK");
    unsigned long at = number ? strtoul(number, 0, 10) : 0, made = ++count;
    if (at == 0 || made < at || (made > at && !(all && *all == '1'))) return 0;
    if (made == at && mark) close(open(mark, O_WRONLY | O_CREAT, 0600));
    return 1;
}

int pthread_create(pthread_t *thread, const pthread_attr_t *how, void *(*run)(void *), void *with) {
    static int (*next)(pthread_t *, const pthread_attr_t *, void *(*)(void *), void *);
    if (fails()) return EAGAIN;
    if (!next) next = (int (*)(pthread_t *, const pthread_attr_t *, void *(*)(void *), void *))dlsym(RTLD_NEXT, "pthread_create");
    return next(thread, how, run, with);
}
