/* Refuses threads. Preloaded to a program, the Nth call of pthread_create is answered by EAGAIN, N being REFUSE_AT,
   counted from 1, and `refused` is written to the descriptor REFUSE_TELL; where REFUSE_ON is there, each later call is
   refused too. It needs no headers, so the clang of the Rattle kit builds it. */
typedef __SIZE_TYPE__ size;
typedef int create(unsigned long *, const void *, void *(*)(void *), void *);

extern void *dlsym(void *, const char *);
extern char *getenv(const char *);
extern long strtol(const char *, char **, int);
extern long write(int, const void *, size);

/* (EAGAIN and RTLD_NEXT of Linux and its C library) */
enum { again = 11 };
static void *const next = (void *)-1l;

static create *real;
static long at, seen;
static int tell, on;

__attribute__((constructor)) static void start(void) {
    const char *number = getenv("REFUSE_AT"), *descriptor = getenv("REFUSE_TELL");
    real = (create *)dlsym(next, "pthread_create");
    if (!number || !descriptor) return;
    tell = (int)strtol(descriptor, 0, 10);
    on = getenv("REFUSE_ON") != 0;
    at = strtol(number, 0, 10);
}

static int is_refused(void) {
    long number = __atomic_add_fetch(&seen, 1, __ATOMIC_SEQ_CST);
    if (!at || number < at) return 0;
    if (number == at) write(tell, "refused\n", 8);
    return number == at || on;
}

int pthread_create(unsigned long *thread, const void *how, void *(*run)(void *), void *given) {
    return is_refused() ? again : real(thread, how, run, given);
}
