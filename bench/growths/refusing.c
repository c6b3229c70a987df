// Refuses growths of memory. Loaded before the C library (LD_PRELOAD), it counts each call of malloc, calloc, realloc and their kin, and
// each start of a thread, since the program's main began, whoever makes it, and refuses those whose numbers are from `first` to `last`; none where `first` is 0.
// The numbers stand in the file that GROWTHS_FILE names, so that who runs the program reads and sets them while it runs.
#define _GNU_SOURCE
#include <dlfcn.h>
#include <errno.h>
#include <fcntl.h>
#include <pthread.h>
#include <stdatomic.h>
#include <stdint.h>
#include <stdlib.h>
#include <sys/mman.h>
#include <unistd.h>

typedef int Main(int, char **, char **);
typedef int Start(Main *, int, char **, void (*)(void), void (*)(void), void (*)(void), void *);
typedef int Create(pthread_t *, const pthread_attr_t *, void *(*)(void *), void *);

extern void *__libc_malloc(size_t);
extern void *__libc_calloc(size_t, size_t);
extern void *__libc_realloc(void *, size_t);
extern void *__libc_memalign(size_t, size_t);

static struct {
    _Atomic uint64_t asked, first, last, refused;
} *growths;

static Main *main_of_program;

// Counts one growth, and says whether it is refused.
static int is_refused(void)
{
    if (!growths)
        return 0;
    uint64_t number = atomic_fetch_add(&growths->asked, 1) + 1;
    uint64_t first = atomic_load(&growths->first);
    if (!first || number < first || number > atomic_load(&growths->last))
        return 0;
    atomic_fetch_add(&growths->refused, 1);
    errno = ENOMEM;
    return 1;
}

void *malloc(size_t size)
{
    return is_refused() ? NULL : __libc_malloc(size);
}

void *calloc(size_t count, size_t size)
{
    return is_refused() ? NULL : __libc_calloc(count, size);
}

void *realloc(void *block, size_t size)
{
    return is_refused() ? NULL : __libc_realloc(block, size);
}

void *memalign(size_t alignment, size_t size)
{
    return is_refused() ? NULL : __libc_memalign(alignment, size);
}

void *aligned_alloc(size_t alignment, size_t size)
{
    return memalign(alignment, size);
}

int posix_memalign(void **block, size_t alignment, size_t size)
{
    void *got = memalign(alignment, size);
    if (!got)
        return ENOMEM;
    *block = got;
    return 0;
}

int pthread_create(pthread_t *thread, const pthread_attr_t *attributes, void *(*work)(void *), void *with)
{
    Create *create = (Create *)dlsym(RTLD_NEXT, "pthread_create");
    return is_refused() ? EAGAIN : create(thread, attributes, work, with);
}

// Begins to count.
static int counted_main(int count, char **words, char **environment)
{
    const char *name = getenv("GROWTHS_FILE");
    int file = name ? open(name, O_RDWR) : -1;
    void *shared = file < 0 ? MAP_FAILED : mmap(NULL, sizeof *growths, PROT_READ | PROT_WRITE, MAP_SHARED, file, 0);
    if (shared == MAP_FAILED)
        _exit(99);
    close(file);
    growths = shared;
    return main_of_program(count, words, environment);
}

int __libc_start_main(Main *program, int count, char **words, void (*begin)(void), void (*end)(void), void (*unload)(void), void *stack)
{
    Start *start = (Start *)dlsym(RTLD_NEXT, "__libc_start_main");
    main_of_program = program;
    return start(counted_main, count, words, begin, end, unload, stack);
}
