/* Refuses syncs. Preloaded to a program, the Nth call of fdatasync fails with EIO, N being REFUSE_AT, counted from 1, and
   `refused` is written to the descriptor REFUSE_TELL; where REFUSE_ON is there, each later call fails too. It needs no
   headers, so the clang of the Rattle kit builds it. */
typedef __SIZE_TYPE__ size;
typedef int sync(int);

extern void *dlsym(void *, const char *);
extern char *getenv(const char *);
extern long strtol(const char *, char **, int);
extern long write(int, const void *, size);
extern int *__errno_location(void);

/* (EIO and RTLD_NEXT of Linux and its C library) */
enum { input_output_error = 5 };
static void *const next = (void *)-1l;

static sync *real;
static long at, seen;
static int tell, on;

__attribute__((constructor)) static void start(void) {
    const char *number = getenv("REFUSE_AT"), *descriptor = getenv("REFUSE_TELL");
    real = (sync *)dlsym(next, "fdatasync");
    if (!number || !descriptor) return;
    tell = (int)strtol(descriptor, 0, 10);
    on = getenv("REFUSE_ON") != 0;
    at = strtol(number, 0, 10);
}

static int is_refused(void) {
    seen += 1;
    if (!at || seen < at) return 0;
    if (seen == at) write(tell, "refused\n", 8);
    return seen == at || on;
}

int fdatasync(int file) {
    if (!is_refused()) return real(file);
    *__errno_location() = input_output_error;
    return -1;
}
