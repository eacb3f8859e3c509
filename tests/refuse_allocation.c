/* Loaded before the C library by tests/program.py and tests/sockets: of the program's allocations the
   REFUSED_ALLOCATION-th is refused, and as many after it as REFUSED_IN_A_ROW says, itself included. With
   REFUSED_WHILE_THERE they count while a file is there, and with REFUSED_TO_ONE_THREAD only those of the thread are
   refused to which the first one was. With REPORT_REFUSED it is said on standard error once one is. */
#define _GNU_SOURCE
#include <dlfcn.h>
#include <errno.h>
#include <stdatomic.h>
#include <stddef.h>
#include <stdlib.h>
#include <unistd.h>

/* Of threads each allocation has a number of its own. */
static atomic_long made;
static long first, past;
static atomic_int was_refused;
/* The file of REFUSED_WHILE_THERE. */
static const char *sign;
/* The thread to which the first was refused; 0 before, and where it doesn't matter. */
static int is_for_one_thread;
static atomic_long refused_thread;

static long number_of(const char *name, long otherwise) {
    const char *text = getenv(name);
    return text ? atol(text) : otherwise;
}

__attribute__((constructor)) static void begin(void) {
    first = number_of("REFUSED_ALLOCATION", 0);
    past = first > 0 ? first + number_of("REFUSED_IN_A_ROW", 1) : 0;
    sign = getenv("REFUSED_WHILE_THERE");
    is_for_one_thread = getenv("REFUSED_TO_ONE_THREAD") != NULL;
    made = 0;
}

/* At once: a program on threads may end without what libraries do at its end. */
static void report(void) {
    static const char said[] = "an allocation was refused\n";
    if (getenv("REPORT_REFUSED") && write(2, said, sizeof said - 1) < 0) {
        _exit(1);
    }
}

static int is_counted(void) {
    int kept = errno;
    int is_there = sign == NULL || access(sign, F_OK) == 0;
    errno = kept;
    return is_there;
}

static int is_of_another_thread(void) {
    long own = gettid(), found = 0;
    return is_for_one_thread && !atomic_compare_exchange_strong(&refused_thread, &found, own) && found != own;
}

static int is_refused(void) {
    if (!is_counted()) {
        return 0;
    }
    long number = atomic_fetch_add(&made, 1) + 1;
    if (number < first || past <= number || is_of_another_thread()) {
        return 0;
    }
    if (!atomic_exchange(&was_refused, 1)) {
        report();
    }
    errno = ENOMEM;
    return 1;
}

#define NEXT(name) ((__typeof__(&name))dlsym(RTLD_NEXT, #name))

void *malloc(size_t size) { return is_refused() ? NULL : NEXT(malloc)(size); }

void *realloc(void *old, size_t size) { return is_refused() ? NULL : NEXT(realloc)(old, size); }

void *aligned_alloc(size_t alignment, size_t size) { return is_refused() ? NULL : NEXT(aligned_alloc)(alignment, size); }

int posix_memalign(void **place, size_t alignment, size_t size) {
    return is_refused() ? ENOMEM : NEXT(posix_memalign)(place, alignment, size);
}
