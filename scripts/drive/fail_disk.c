// A library that is loaded before the C library, for states.py, streams.py and bench/ask.sh. It counts the calls
// that change a file or put it on the disk, from 1 on: an open that may make a file, a write to a file, fsync, fdatasync,
// rename and ftruncate. The call of number FAIL_AT goes another way, which FAIL_WAY names:
//
//   once   it does nothing and fails
//   full   so do it and all later ones
//   short  the same, but half of a write is written
//   kill   the process is killed before it
//   torn   the process is killed, after half of a write is written
//
// At the end the count is written to the descriptor COUNT_TO. With FREE_SYNCS a sync does nothing and succeeds. With DENY_OPEN an open of this path fails. What is used of the C
// library is declared here, so that no header is needed.

void *dlsym(void *handle, const char *name);
char *getenv(const char *name);
unsigned long strtoul(const char *text, char **end, int base);
int dprintf(int descriptor, const char *format, ...);
int strcmp(const char *one, const char *other);
int strncmp(const char *one, const char *other, unsigned long size);
int snprintf(char *text, unsigned long room, const char *format, ...);
long readlink(const char *path, char *text, unsigned long room);
int raise(int signal);
int *__errno_location(void);

#define NEXT ((void *)-1)
#define EACCES 13
#define ENOSPC 28
#define SIGKILL 9
#define O_CREAT 0100

static unsigned long count, fail_at, count_to;
static const char *way, *denied;
static int free_syncs;

static unsigned long number_in(const char *variable) {
    const char *text = getenv(variable);
    return text ? strtoul(text, 0, 10) : 0;
}

__attribute__((constructor)) static void begin(void) {
    fail_at = number_in("FAIL_AT");
    count_to = number_in("COUNT_TO");
    way = getenv("FAIL_WAY");
    denied = getenv("DENY_OPEN");
    free_syncs = getenv("FREE_SYNCS") != 0;
}

__attribute__((destructor)) static void end(void) {
    if (count_to)
        dprintf((int)count_to, "%lu\n", count);
}

static int is_way(const char *name) {
    return way && strcmp(way, name) == 0;
}

// Counts a call, and kills the process before it or says whether it fails.
static int fails(void) {
    int is_it = ++count == fail_at;
    if (is_it && (is_way("kill") || is_way("torn")))
        raise(SIGKILL);
    if (!is_it && !(fail_at && count > fail_at && (is_way("full") || is_way("short"))))
        return 0;
    *__errno_location() = ENOSPC;
    return 1;
}

static int is_file(int descriptor) {
    char own[64], path[8];
    snprintf(own, sizeof own, "/proc/self/fd/%d", descriptor);
    long size = readlink(own, path, sizeof path);
    return size > 0 && path[0] == '/' && strncmp(path, "/dev/", 5) != 0;
}

int open(const char *path, int flags, ...) {
    __builtin_va_list words;
    __builtin_va_start(words, flags);
    unsigned mode = flags & O_CREAT ? __builtin_va_arg(words, unsigned) : 0;
    __builtin_va_end(words);
    int (*next)(const char *, int, ...) = dlsym(NEXT, "open");
    if (denied && strcmp(path, denied) == 0) {
        *__errno_location() = EACCES;
        return -1;
    }
    return flags & O_CREAT && fails() ? -1 : next(path, flags, mode);
}

long write(int descriptor, const void *bytes, unsigned long size) {
    long (*next)(int, const void *, unsigned long) = dlsym(NEXT, "write");
    // Where nothing fails and nothing is counted, no time is taken to see what the descriptor is.
    if ((!fail_at && !count_to) || !is_file(descriptor))
        return next(descriptor, bytes, size);
    if (fail_at && count + 1 == fail_at && size > 1 && (is_way("short") || is_way("torn"))) {
        long half = next(descriptor, bytes, size / 2);
        fails();
        return half;
    }
    return fails() ? -1 : next(descriptor, bytes, size);
}

int fsync(int descriptor) {
    int (*next)(int) = dlsym(NEXT, "fsync");
    return fails() ? -1 : free_syncs ? 0 : next(descriptor);
}

int fdatasync(int descriptor) {
    int (*next)(int) = dlsym(NEXT, "fdatasync");
    return fails() ? -1 : free_syncs ? 0 : next(descriptor);
}

int rename(const char *from, const char *to) {
    int (*next)(const char *, const char *) = dlsym(NEXT, "rename");
    return fails() ? -1 : next(from, to);
}

int ftruncate(int descriptor, long size) {
    int (*next)(int, long) = dlsym(NEXT, "ftruncate");
    return fails() ? -1 : next(descriptor, size);
}
