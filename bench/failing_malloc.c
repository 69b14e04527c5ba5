/* Refuses requests for memory, so that a program's answers to that can be looked at.
 *
 * It is loaded before the C library (LD_PRELOAD). A built program of this repository asks for memory by
 * `malloc` and `realloc` alone, and for threads by `pthread_create`. Each call of these is counted, and one
 * that is refused fails as the system's would. The words of `struct control` say which ones are refused. They
 * stand in the file that the variable HUB_GROWTHS names. `refusals.py` maps that file too, and may change a
 * word while the program runs. */
#define _GNU_SOURCE
#include <dlfcn.h>
#include <errno.h>
#include <fcntl.h>
#include <pthread.h>
#include <stdatomic.h>
#include <stddef.h>
#include <stdint.h>
#include <stdlib.h>
#include <sys/mman.h>
#include <unistd.h>

/* The words of the file, in the order of WORDS in refusals.py. */
struct control {
    _Atomic uint64_t asked;   /* How many requests were made. */
    _Atomic uint64_t first;   /* The number of the first that is refused, from 1; 0 for none. */
    _Atomic uint64_t lasting; /* Whether those behind it are refused too. */
    _Atomic uint64_t one_in;  /* One in so many is refused by chance; 0 for none. */
    _Atomic uint64_t seed;    /* What chance begins with. */
    _Atomic uint64_t refused; /* How many were refused. */
};

extern void *__libc_malloc(size_t size);
extern void *__libc_realloc(void *old, size_t size);

static struct control *control;

__attribute__((constructor)) static void begin(void)
{
    const char *name = getenv("HUB_GROWTHS");
    int file = name ? open(name, O_RDWR | O_CLOEXEC) : -1;
    if (file < 0)
        return;
    void *words = mmap(NULL, sizeof *control, PROT_READ | PROT_WRITE, MAP_SHARED, file, 0);
    close(file);
    if (words != MAP_FAILED)
        control = words;
}

/* Mixes a number, so that near ones have nothing in common (splitmix64). */
static uint64_t mixed(uint64_t n)
{
    n += 0x9e3779b97f4a7c15u;
    n = (n ^ (n >> 30)) * 0xbf58476d1ce4e5b9u;
    n = (n ^ (n >> 27)) * 0x94d049bb133111ebu;
    return n ^ (n >> 31);
}

/* Counts a request, and says whether it is refused. */
static int is_refused(void)
{
    if (!control)
        return 0;
    uint64_t number = atomic_fetch_add(&control->asked, 1) + 1;
    uint64_t first = atomic_load(&control->first);
    uint64_t one_in = atomic_load(&control->one_in);
    int refused = first && (number == first || (number > first && atomic_load(&control->lasting)));
    if (one_in && mixed(atomic_load(&control->seed) + number) % one_in == 0)
        refused = 1;
    if (refused)
        atomic_fetch_add(&control->refused, 1);
    return refused;
}

void *malloc(size_t size)
{
    if (is_refused()) {
        errno = ENOMEM;
        return NULL;
    }
    return __libc_malloc(size);
}

void *realloc(void *old, size_t size)
{
    if (size && is_refused()) {
        errno = ENOMEM;
        return NULL;
    }
    return __libc_realloc(old, size);
}

int pthread_create(pthread_t *thread, const pthread_attr_t *attributes, void *(*start)(void *), void *given)
{
    static int (*real)(pthread_t *, const pthread_attr_t *, void *(*)(void *), void *);
    if (is_refused())
        return EAGAIN;
    if (!real)
        real = dlsym(RTLD_NEXT, "pthread_create");
    return real(thread, attributes, start, given);
}
