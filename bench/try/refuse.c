/* Refuses one allocation of a program: the one whose number, counted from 1 over all its threads, stands in REFUSE. How many allocations were asked for, how
   many threads were started and how many ran to their end is kept in the file that COUNTS names, since a program may end without a last word. Whether a
   thread was joined isn't asked: one whose handle was let go of ends with its scope. refuse.py preloads it. */
#define _GNU_SOURCE
#include <dlfcn.h>
#include <errno.h>
#include <fcntl.h>
#include <pthread.h>
#include <stdatomic.h>
#include <stdlib.h>
#include <sys/mman.h>
#include <sys/syscall.h>
#include <time.h>
#include <unistd.h>

void *__libc_malloc(size_t size);
void *__libc_calloc(size_t count, size_t size);
void *__libc_realloc(void *old, size_t size);
void *__libc_memalign(size_t alignment, size_t size);

struct counts {
    atomic_long asked, started, ended;
};

static struct counts *counts;
static long refused;
static int (*create)(pthread_t *, const pthread_attr_t *, void *(*)(void *), void *);

__attribute__((constructor)) static void begin(void) {
    /* Looked up before anything is counted, since the look-up may allocate. */
    create = (int (*)(pthread_t *, const pthread_attr_t *, void *(*)(void *), void *))dlsym(RTLD_NEXT, "pthread_create");
    const char *number = getenv("REFUSE"), *name = getenv("COUNTS");
    int file = number && name ? open(name, O_RDWR | O_CREAT | O_TRUNC, 0600) : -1;
    if (file < 0 || ftruncate(file, sizeof(struct counts)) != 0)
        return;
    void *place = mmap(NULL, sizeof(struct counts), PROT_READ | PROT_WRITE, MAP_SHARED, file, 0);
    close(file);
    if (place == MAP_FAILED)
        return;
    refused = atol(number);
    counts = place;
}

static int is_refused(void) {
    if (!counts || atomic_fetch_add(&counts->asked, 1) + 1 != refused)
        return 0;
    errno = ENOMEM;
    return 1;
}

void *malloc(size_t size) { return is_refused() ? NULL : __libc_malloc(size); }

void *calloc(size_t count, size_t size) { return is_refused() ? NULL : __libc_calloc(count, size); }

void *realloc(void *old, size_t size) { return is_refused() ? NULL : __libc_realloc(old, size); }

void *memalign(size_t alignment, size_t size) { return is_refused() ? NULL : __libc_memalign(alignment, size); }

void *aligned_alloc(size_t alignment, size_t size) { return is_refused() ? NULL : __libc_memalign(alignment, size); }

int posix_memalign(void **place, size_t alignment, size_t size) {
    if (is_refused())
        return ENOMEM;
    *place = __libc_memalign(alignment, size);
    return *place ? 0 : ENOMEM;
}

struct start {
    void *(*begin_at)(void *);
    void *argument;
};

static void *run_to_end(void *of) {
    struct start start = *(struct start *)of;
    free(of);
    void *result = start.begin_at(start.argument);
    atomic_fetch_add(&counts->ended, 1);
    return result;
}

int pthread_create(pthread_t *thread, const pthread_attr_t *attributes, void *(*begin_at)(void *), void *argument) {
    struct start *start = counts ? __libc_malloc(sizeof(struct start)) : NULL;
    if (!start)
        return create(thread, attributes, begin_at, argument);
    *start = (struct start){begin_at, argument};
    int fault = create(thread, attributes, run_to_end, start);
    if (fault)
        free(start);
    else
        atomic_fetch_add(&counts->started, 1);
    return fault;
}

/* A thread that has told its scope that it is done still has to return: it has a second for that. One that runs on is left out of `ended`. */
static void wait_for_ends(void) {
    const struct timespec pause = {0, 1000000};
    for (int looks = 0; counts && looks < 1000 && atomic_load(&counts->ended) < atomic_load(&counts->started); looks++)
        nanosleep(&pause, NULL);
}

__attribute__((destructor)) static void finish(void) { wait_for_ends(); }

/* A program that ends by this runs no destructor. */
void _exit(int status) {
    wait_for_ends();
    for (;;)
        syscall(SYS_exit_group, status);
}
