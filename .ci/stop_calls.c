/* Stops a program at one of its calls of the system. Preloaded to a program, it counts the calls below, from 1 on. The one of
   number STOP_AT isn't made: where STOP_HOW is `kill` the process is killed before it, where it is `tear` half of what it
   was to write is written before that, where it is `short` that half is all that the call writes, where it is `none` it writes
   nothing, and else it fails with the error of that number. A file is closed either way. Where STOP_HOW is `wait` the process
   stops before the call (SIGSTOP), and makes it once it is told to go on.

   To the descriptor STOP_TELL it writes a line for each call that was made, `CALL PATH NUMBER`: the number is of a sync that
   went well how many bytes the file has, of one that failed -1, of another call its answer. The call that was stopped is told
   before, with a `!` in front. It needs no headers, so the clang of the Rattle kit builds it. */
typedef __SIZE_TYPE__ size;
typedef __PTRDIFF_TYPE__ count;

extern void *dlsym(void *, const char *);
extern char *getenv(const char *);
extern long strtol(const char *, char **, int);
extern int *__errno_location(void);
extern int getpid(void);
extern int kill(int, int);
extern long lseek(int, long, int);

/* (of Linux and its C library) */
enum { killed = 9, stopped = 19, creates = 0100, from_end = 2 };
static void *const next = (void *)-1l;

enum { files = 64, longest = 200 };
static char paths[files][longest] = {"stdin", "stdout", "stderr"};

static count (*real_write)(int, const void *, size);
static long at, seen, error;
static int tell = -1;
static char how_stopped;

__attribute__((constructor)) static void start(void) {
    const char *number = getenv("STOP_AT"), *descriptor = getenv("STOP_TELL"), *how = getenv("STOP_HOW");
    real_write = (count(*)(int, const void *, size))dlsym(next, "write");
    if (!number || !descriptor || !how) return;
    tell = (int)strtol(descriptor, 0, 10);
    at = strtol(number, 0, 10);
    error = strtol(how, 0, 10);
    how_stopped = how[0];
}

/* Adds the words to the line, as far as there is room. */
static size add(char *line, size length, const char *words) {
    while (*words && length < 2 * longest) line[length++] = *words++;
    return length;
}

static size add_number(char *line, size length, long number) {
    char digits[24], *first = digits + 23;
    int is_below = number < 0;
    *first = 0;
    do {
        *--first = (char)('0' + (is_below ? -(number % 10) : number % 10));
        number /= 10;
    } while (number);
    if (is_below) *--first = '-';
    return add(line, length, first);
}

static void tell_call(const char *mark, const char *call, const char *path, long number) {
    char line[2 * longest + 2];
    size length = add(line, add(line, add(line, add(line, 0, mark), call), " "), path);
    length = add_number(line, add(line, length, " "), number);
    line[length++] = '\n';
    if (tell >= 0) real_write(tell, line, length);
}

static const char *path_of(int file) { return file >= 0 && file < files ? paths[file] : "?"; }

/* Whether the call that comes is stopped: then it fails, unless the process is killed here. */
static int is_stopped(const char *call, const char *path) {
    seen += 1;
    if (seen != at) return 0;
    tell_call("! ", call, path, 0);
    if (how_stopped == 'k') kill(getpid(), killed);
    if (how_stopped == 'w') {
        kill(getpid(), stopped);
        return 0;
    }
    *__errno_location() = (int)error;
    return 1;
}

static count told(const char *call, const char *path, count answer) {
    int kept = *__errno_location();
    tell_call("", call, path, answer);
    *__errno_location() = kept;
    return answer;
}

int open(const char *path, int flags, ...) {
    static int (*real)(const char *, int, ...);
    __builtin_va_list more;
    __builtin_va_start(more, flags);
    int mode = flags & creates ? __builtin_va_arg(more, int) : 0;
    __builtin_va_end(more);
    if (!real) real = (int (*)(const char *, int, ...))dlsym(next, "open");
    const char *call = flags & creates ? "make" : "open";
    if (is_stopped(call, path)) return -1;
    int file = real(path, flags, mode);
    if (file >= 0 && file < files) paths[file][add(paths[file], 0, path)] = 0;
    return (int)told(call, path, file);
}

count read(int file, void *bytes, size room) {
    static count (*real)(int, void *, size);
    if (!real) real = (count(*)(int, void *, size))dlsym(next, "read");
    return is_stopped("read", path_of(file)) ? -1 : told("read", path_of(file), real(file, bytes, room));
}

count pread(int file, void *bytes, size room, long place) {
    static count (*real)(int, void *, size, long);
    if (!real) real = (count(*)(int, void *, size, long))dlsym(next, "pread");
    return is_stopped("pread", path_of(file)) ? -1 : told("pread", path_of(file), real(file, bytes, room, place));
}

count write(int file, const void *bytes, size length) {
    if (!is_stopped("write", path_of(file))) return told("write", path_of(file), real_write(file, bytes, length));
    count half = how_stopped == 't' || how_stopped == 's' ? real_write(file, bytes, length / 2) : 0;
    if (how_stopped == 't') kill(getpid(), killed);
    return error ? -1 : half;
}

count __write(int file, const void *bytes, size length) { return write(file, bytes, length); }

static int synced(const char *call, int file, int answer) {
    told(call, path_of(file), answer ? -1 : lseek(file, 0, from_end));
    return answer;
}

int fsync(int file) {
    static int (*real)(int);
    if (!real) real = (int (*)(int))dlsym(next, "fsync");
    return is_stopped("fsync", path_of(file)) ? -1 : synced("fsync", file, real(file));
}

int fdatasync(int file) {
    static int (*real)(int);
    if (!real) real = (int (*)(int))dlsym(next, "fdatasync");
    return is_stopped("fdatasync", path_of(file)) ? -1 : synced("fdatasync", file, real(file));
}

int ftruncate(int file, long length) {
    static int (*real)(int, long);
    if (!real) real = (int (*)(int, long))dlsym(next, "ftruncate");
    return is_stopped("ftruncate", path_of(file)) ? -1 : (int)told("ftruncate", path_of(file), real(file, length));
}

int flock(int file, int how) {
    static int (*real)(int, int);
    if (!real) real = (int (*)(int, int))dlsym(next, "flock");
    return is_stopped("flock", path_of(file)) ? -1 : (int)told("flock", path_of(file), real(file, how));
}

int rename(const char *path, const char *to) {
    static int (*real)(const char *, const char *);
    if (!real) real = (int (*)(const char *, const char *))dlsym(next, "rename");
    return is_stopped("rename", path) ? -1 : (int)told("rename", path, real(path, to));
}

int unlink(const char *path) {
    static int (*real)(const char *);
    if (!real) real = (int (*)(const char *))dlsym(next, "unlink");
    return is_stopped("unlink", path) ? -1 : (int)told("unlink", path, real(path));
}

int statx(int file, const char *path, int flags, unsigned mask, void *found) {
    static int (*real)(int, const char *, int, unsigned, void *);
    if (!real) real = (int (*)(int, const char *, int, unsigned, void *))dlsym(next, "statx");
    const char *of = path && *path ? path : path_of(file);
    return is_stopped("stat", of) ? -1 : (int)told("stat", of, real(file, path, flags, mask, found));
}

int chmod(const char *path, unsigned mode) {
    static int (*real)(const char *, unsigned);
    if (!real) real = (int (*)(const char *, unsigned))dlsym(next, "chmod");
    return is_stopped("chmod", path) ? -1 : (int)told("chmod", path, real(path, mode));
}

int mkdir(const char *path, unsigned mode) {
    static int (*real)(const char *, unsigned);
    if (!real) real = (int (*)(const char *, unsigned))dlsym(next, "mkdir");
    return is_stopped("mkdir", path) ? -1 : (int)told("mkdir", path, real(path, mode));
}

int close(int file) {
    static int (*real)(int);
    if (!real) real = (int (*)(int))dlsym(next, "close");
    int is_stopped_here = is_stopped("close", path_of(file)), answer = real(file);
    return is_stopped_here ? -1 : (int)told("close", path_of(file), answer);
}
