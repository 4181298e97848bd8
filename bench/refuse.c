// Refuses calls of the program that it is loaded into by LD_PRELOAD: starts of threads, or requests for memory.
//
// REFUSE is `threads` or `memory`. REFUSE_FROM is the number of the first such call that is refused, from 1; after it
// each REFUSE_STEP-th is refused too, and none where that is 0. At the first refusal the file REFUSE_MARK is made. Calls
// before `main` come from the loader and are neither counted nor refused.
#define _GNU_SOURCE
#include <dlfcn.h>
#include <errno.h>
#include <fcntl.h>
#include <pthread.h>
#include <stdatomic.h>
#include <stdbool.h>
#include <stdlib.h>
#include <string.h>
#include <unistd.h>

// What the C library itself calls these, so that no look-up is needed that asks for memory.
extern void *__libc_malloc(size_t size);
extern void *__libc_calloc(size_t count, size_t size);
extern void *__libc_realloc(void *old, size_t size);

enum kind { NOTHING, THREADS, MEMORY };

typedef int start_function(pthread_t *, const pthread_attr_t *, void *(*)(void *), void *);

static enum kind refused = NOTHING;
static unsigned long from, step;
static const char *mark;
static start_function *start_thread;
static atomic_ulong calls;
static atomic_bool marked;

static unsigned long number(const char *name)
{
    const char *text = getenv(name);
    return text ? strtoul(text, NULL, 10) : 0;
}

__attribute__((constructor)) static void read_settings(void)
{
    const char *kind = getenv("REFUSE");
    start_thread = (start_function *)dlsym(RTLD_NEXT, "pthread_create");
    from = number("REFUSE_FROM");
    step = number("REFUSE_STEP");
    mark = getenv("REFUSE_MARK");
    if (!kind || !mark || !start_thread || from == 0)
        abort();
    refused = strcmp(kind, "threads") == 0 ? THREADS : MEMORY;
}

// Counts a call, and says whether it is refused.
static bool refuses(enum kind kind)
{
    if (kind != refused)
        return false;
    unsigned long call = atomic_fetch_add(&calls, 1) + 1;
    if (call < from || (call > from && (step == 0 || (call - from) % step != 0)))
        return false;
    if (!atomic_exchange(&marked, true))
        close(open(mark, O_WRONLY | O_CREAT, 0600));
    return true;
}

static bool memory_is_refused(void)
{
    if (!refuses(MEMORY))
        return false;
    errno = ENOMEM;
    return true;
}

int pthread_create(pthread_t *thread, const pthread_attr_t *attributes, void *(*run)(void *), void *argument)
{
    return refuses(THREADS) ? EAGAIN : start_thread(thread, attributes, run, argument);
}

void *malloc(size_t size)
{
    return memory_is_refused() ? NULL : __libc_malloc(size);
}

void *calloc(size_t count, size_t size)
{
    return memory_is_refused() ? NULL : __libc_calloc(count, size);
}

void *realloc(void *old, size_t size)
{
    return memory_is_refused() ? NULL : __libc_realloc(old, size);
}
