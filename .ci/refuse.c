/* Refuses growths of memory. Preloaded to a program, the Nth call of malloc or realloc is answered by NULL, N
   being REFUSE_AT, counted from 1, and `refused` is written to the descriptor REFUSE_TELL; where REFUSE_ON is
   there, each later call is refused too. It needs no headers, so the clang of the Rattle kit builds it. */
typedef __SIZE_TYPE__ size;

extern void *__libc_malloc(size);
extern void *__libc_realloc(void *, size);
extern char *getenv(const char *);
extern long strtol(const char *, char **, int);
extern long write(int, const void *, size);

static long at, seen;
static int tell, on;

__attribute__((constructor)) static void start(void) {
    const char *number = getenv("REFUSE_AT"), *descriptor = getenv("REFUSE_TELL");
    if (!number || !descriptor) return;
    tell = (int)strtol(descriptor, 0, 10);
    on = getenv("REFUSE_ON") != 0;
    seen = 0;
    at = strtol(number, 0, 10);
}

static int is_refused(void) {
    long number = __atomic_add_fetch(&seen, 1, __ATOMIC_SEQ_CST);
    if (!at || number < at) return 0;
    if (number == at) write(tell, "refused\n", 8);
    return number == at || on;
}

void *malloc(size bytes) { return is_refused() ? 0 : __libc_malloc(bytes); }

void *realloc(void *block, size bytes) { return is_refused() ? 0 : __libc_realloc(block, bytes); }
