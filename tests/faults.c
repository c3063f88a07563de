/* Has requests of a process fail, for tests/memory.py and tests/stops.py. It is made into a library that is loaded
 * before the C library (LD_PRELOAD), and is told by the environment what is to fail:
 *
 * REFUSE=N   Of the calls of malloc, calloc and realloc the Nth fails, counting from 1.
 * AGAIN=N    Of the calls after that one the Nth fails too.
 * REGISTER=F The register's file is F, its log F-wal. Whenever one of them says that it is safe (fsync, fdatasync),
 *            what it then holds is kept beside it, as F-safe or F-safe-wal.
 * CALLS=N    Of the file of that register, or with LOG=1 of its log, N calls are passed on (to read, write, cut or sync
 *            it or to ask for its length), and from then on each fails. Once a file is opened to write it, calls of one
 *            that is opened to read it pass: `serve` looks at its files beside the register.
 * NO_ROOM=1  Of these calls only those to write it are counted and fail, as on a full disk.
 * OUTPUT=N   N calls to write to standard output are passed on, and from then on each fails.
 * FAILED=F   The file F is made as soon as something failed, so that a test can tell a fault from an end before it.
 *
 * It needs no header, so that any C compiler makes it, and calls the system by its numbers on x86-64. */

typedef unsigned long size;

enum { WRITE = 1, PREAD = 17, PWRITE = 18, SENDFILE = 40, FSYNC = 74, FDATASYNC = 75, FTRUNCATE = 77, STATX = 332 };
enum { HERE = -100, STANDARD_OUTPUT = 1, IO_FAULT = 5, NO_ROOM = 28, LONGEST_PATH = 4096, MOST_AT_ONCE = 1 << 20 };
enum { READ_ONLY = 0, ACCESS = 3 };
enum { DATABASE, LOG, FILES, NEITHER = -1 };

extern void *__libc_malloc(size length);
extern void *__libc_calloc(size count, size length);
extern void *__libc_realloc(void *block, size length);
extern char *getenv(const char *name);
extern unsigned long strtoul(const char *text, char **end, int base);
extern int strcmp(const char *one, const char *other);
extern size strlen(const char *text);
extern char *strcpy(char *to, const char *from);
extern char *strcat(char *to, const char *from);
extern int creat(const char *path, unsigned mode);
extern int close(int file);
extern int openat(int folder, const char *path, int flags, ...);
extern long syscall(long number, ...);
extern int *__errno_location(void);

static size requests_left; /* requests for memory up to the refused one, that included; 0 where none is to be refused */
static size requests_after; /* those after it up to the second refused one, included; 0 if there is none */
static int is_output_failing;
static size writes_left; /* calls to write to standard output that are passed on, if others are to fail */
static int stopping = NEITHER;
static size calls_left;
static int is_full; /* whether only calls to write fail, for want of room */
static char paths[FILES][LONGEST_PATH];
static int opened[FILES] = {NEITHER, NEITHER};
static int is_written[FILES]; /* whether it was opened to write it */

__attribute__((constructor)) static void begin(void) {
    const char *refuse = getenv("REFUSE"), *again = getenv("AGAIN"), *output = getenv("OUTPUT");
    const char *file = getenv("REGISTER"), *calls = getenv("CALLS");
    requests_left = refuse ? strtoul(refuse, 0, 10) : 0;
    requests_after = again ? strtoul(again, 0, 10) : 0;
    is_output_failing = output != 0;
    writes_left = output ? strtoul(output, 0, 10) : 0;
    if (file && strlen(file) + 16 < LONGEST_PATH) {
        strcpy(paths[DATABASE], file);
        strcat(strcpy(paths[LOG], file), "-wal");
    }
    if (calls) {
        stopping = getenv("LOG") ? LOG : DATABASE;
        calls_left = strtoul(calls, 0, 10);
        is_full = getenv("NO_ROOM") != 0;
    }
}

/* Notes that something failed. */
static void fail(void) {
    const char *path = getenv("FAILED");
    if (path) {
        creat(path, 0600);
    }
}

/* Memory */

static int is_refused(void) {
    if (requests_left == 0 || --requests_left > 0) {
        return 0;
    }
    requests_left = requests_after;
    requests_after = 0;
    fail();
    return 1;
}

void *malloc(size length) {
    return is_refused() ? 0 : __libc_malloc(length);
}

void *calloc(size count, size length) {
    return is_refused() ? 0 : __libc_calloc(count, length);
}

void *realloc(void *block, size length) {
    return is_refused() ? 0 : __libc_realloc(block, length);
}

/* Standard output */

long write(int file, const void *bytes, size length) {
    if (file == STANDARD_OUTPUT && is_output_failing) {
        if (writes_left == 0) {
            *__errno_location() = IO_FAULT;
            fail();
            return -1;
        }
        writes_left--;
    }
    return syscall(WRITE, file, bytes, length);
}

/* Files */

/* Which of the register's files this is. */
static int which(int file) {
    for (int one = 0; one < FILES; one++) {
        if (file >= 0 && opened[one] == file) {
            return one;
        }
    }
    return NEITHER;
}

/* Whether this call of a file fails. `is_writing` says whether it writes the file. */
static int is_stopped(int file, int is_writing) {
    if (stopping == NEITHER || which(file) != stopping || (is_full && !is_writing)) {
        return 0;
    }
    if (calls_left > 0) {
        calls_left--;
        return 0;
    }
    *__errno_location() = is_full ? NO_ROOM : IO_FAULT;
    fail();
    return 1;
}

/* Keeps what a file holds as safe. */
static void keep(int file) {
    char path[LONGEST_PATH];
    long at = 0;
    int one = which(file);
    if (one == NEITHER) {
        return;
    }
    strcat(strcpy(path, paths[DATABASE]), one == LOG ? "-safe-wal" : "-safe");
    int safe = creat(path, 0600);
    while (syscall(SENDFILE, safe, file, &at, MOST_AT_ONCE) > 0) {
    }
    close(safe);
}

int open(const char *path, int flags, ...) {
    __builtin_va_list rest;
    __builtin_va_start(rest, flags);
    int file = openat(HERE, path, flags, __builtin_va_arg(rest, unsigned));
    __builtin_va_end(rest);
    int is_writing = (flags & ACCESS) != READ_ONLY;
    for (int one = 0; one < FILES; one++) {
        if (file >= 0 && paths[one][0] && strcmp(path, paths[one]) == 0 && (is_writing || !is_written[one])) {
            opened[one] = file;
            is_written[one] = is_writing;
        }
    }
    return file;
}

int open64(const char *path, int flags, ...) __attribute__((alias("open")));

long pread(int file, void *bytes, size length, long at) {
    return is_stopped(file, 0) ? -1 : syscall(PREAD, file, bytes, length, at);
}

long pread64(int file, void *bytes, size length, long at) __attribute__((alias("pread")));

long pwrite(int file, const void *bytes, size length, long at) {
    return is_stopped(file, 1) ? -1 : syscall(PWRITE, file, bytes, length, at);
}

long pwrite64(int file, const void *bytes, size length, long at) __attribute__((alias("pwrite")));

int ftruncate(int file, long length) {
    return is_stopped(file, 0) ? -1 : (int)syscall(FTRUNCATE, file, length);
}

int ftruncate64(int file, long length) __attribute__((alias("ftruncate")));

int statx(int file, const char *path, int flags, unsigned mask, void *found) {
    return is_stopped(file, 0) ? -1 : (int)syscall(STATX, file, path, flags, mask, found);
}

static int synced(int file, long number) {
    if (is_stopped(file, 0)) {
        return -1;
    }
    int told = (int)syscall(number, file);
    if (told == 0) {
        keep(file);
    }
    return told;
}

int fsync(int file) {
    return synced(file, FSYNC);
}

int fdatasync(int file) {
    return synced(file, FDATASYNC);
}
