/* Counts the requests for memory that a program makes, and refuses the one with the number in the variable REFUSED, from 1;
   with a minus after the number, each from there on. At its end the program writes the number of its requests to
   descriptor 3. The start of the thread with the number in NO_THREAD, from 1, is refused too. LD_PRELOAD loads it into a
   program. */

#include <errno.h>

typedef __SIZE_TYPE__ size_t;

extern void *__libc_malloc(size_t size);
extern void *__libc_realloc(void *at, size_t size);
extern void *__libc_calloc(size_t count, size_t size);
extern char *getenv(const char *name);
extern unsigned long strtoul(const char *text, char **end, int base);
extern void *dlsym(void *library, const char *name);
extern int dprintf(int descriptor, const char *form, ...);
extern _Noreturn void _Exit(int status);

static unsigned long made;
static unsigned long refused;
static int and_later;

/* The C library looks at the error when it starts a thread. */
static int is_refused(void) {
    unsigned long number = __atomic_add_fetch(&made, 1, __ATOMIC_SEQ_CST);
    if (number != refused && !(and_later && number > refused)) return 0;
    errno = ENOMEM;
    return 1;
}

void *malloc(size_t size) {
    return is_refused() ? 0 : __libc_malloc(size);
}

void *realloc(void *at, size_t size) {
    return is_refused() ? 0 : __libc_realloc(at, size);
}

void *calloc(size_t count, size_t size) {
    return is_refused() ? 0 : __libc_calloc(count, size);
}

typedef int starting(void *thread, const void *how, void *(*run)(void *), void *with);

static unsigned long started;

int pthread_create(void *thread, const void *how, void *(*run)(void *), void *with) {
    const char *number = getenv("NO_THREAD");
    char *rest;
    unsigned long place = __atomic_add_fetch(&started, 1, __ATOMIC_SEQ_CST);
    /* the C library after this one, which has the call of this name */
    starting *start = (starting *)dlsym((void *)-1L, "pthread_create");
    if ((number && strtoul(number, &rest, 10) == place) || !start) return EAGAIN;
    return start(thread, how, run, with);
}

__attribute__((constructor)) static void begin(void) {
    const char *number = getenv("REFUSED");
    char *rest;
    made = 0;
    refused = number ? strtoul(number, &rest, 10) : 0;
    and_later = number && *rest == '-';
}

__attribute__((destructor)) static void end(void) {
    unsigned long count = made;
    dprintf(3, "%lu\n", count);
}

/* So ends a program that may have threads: without destructors. */
_Noreturn void _exit(int status) {
    end();
    _Exit(status);
}
