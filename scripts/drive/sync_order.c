// A library that is loaded before the C library, for restarts.py, states.py and listen.sh. It logs the calls that
// hand bytes to a file or to a connection, put them on a disk, or rename a file: a line each on the descriptor SYNC_LOG,
// with the call, its descriptor, what it returned, and the path of the descriptor; of a rename the new path, and -1 for
// the descriptor. The fdatasync of number FAIL_SYNC, counted from 1, does nothing and fails, and so does the ftruncate of
// number FAIL_CUT. Each fdatasync first waits SLOW_SYNC milliseconds. What is used of the C library is declared here, so
// that no header is needed.

void *dlsym(void *handle, const char *name);
char *getenv(const char *name);
unsigned long strtoul(const char *text, char **end, int base);
int dprintf(int descriptor, const char *format, ...);
int snprintf(char *text, unsigned long room, const char *format, ...);
long readlink(const char *path, char *text, unsigned long room);
int usleep(unsigned int microseconds);
int *__errno_location(void);

#define NEXT ((void *)-1)
#define EIO 5

static int log_to = -1;
static unsigned long syncs, failing_sync, cuts, failing_cut;
static unsigned int slow_sync;

static unsigned long number_in(const char *variable) {
    const char *text = getenv(variable);
    return text ? strtoul(text, 0, 10) : 0;
}

__attribute__((constructor)) static void begin(void) {
    const char *text = getenv("SYNC_LOG");
    log_to = text ? (int)strtoul(text, 0, 10) : -1;
    failing_sync = number_in("FAIL_SYNC");
    failing_cut = number_in("FAIL_CUT");
    slow_sync = (unsigned int)number_in("SLOW_SYNC");
}

// The call is over, so `errno` is its own again once the line is written.
static long logged(const char *name, int descriptor, long result) {
    int error = *__errno_location();
    char own[64], path[1024];
    snprintf(own, sizeof own, "/proc/self/fd/%d", descriptor);
    long size = readlink(own, path, sizeof path);
    dprintf(log_to, "%s %d %ld %.*s\n", name, descriptor, result, size < 0 ? 0 : (int)size, path);
    *__errno_location() = error;
    return result;
}

long write(int descriptor, const void *bytes, unsigned long size) {
    long (*next)(int, const void *, unsigned long) = dlsym(NEXT, "write");
    return logged("write", descriptor, next(descriptor, bytes, size));
}

long send(int descriptor, const void *bytes, unsigned long size, int flags) {
    long (*next)(int, const void *, unsigned long, int) = dlsym(NEXT, "send");
    return logged("send", descriptor, next(descriptor, bytes, size, flags));
}

int fsync(int descriptor) {
    int (*next)(int) = dlsym(NEXT, "fsync");
    return (int)logged("fsync", descriptor, next(descriptor));
}

int fdatasync(int descriptor) {
    int (*next)(int) = dlsym(NEXT, "fdatasync");
    usleep(slow_sync * 1000);
    if (++syncs == failing_sync) {
        *__errno_location() = EIO;
        return (int)logged("fdatasync", descriptor, -1);
    }
    return (int)logged("fdatasync", descriptor, next(descriptor));
}

int ftruncate(int descriptor, long size) {
    int (*next)(int, long) = dlsym(NEXT, "ftruncate");
    if (++cuts == failing_cut) {
        *__errno_location() = EIO;
        return (int)logged("ftruncate", descriptor, -1);
    }
    return (int)logged("ftruncate", descriptor, next(descriptor, size));
}

int rename(const char *from, const char *to) {
    int (*next)(const char *, const char *) = dlsym(NEXT, "rename");
    int result = next(from, to), error = *__errno_location();
    dprintf(log_to, "rename -1 %d %s\n", result, to);
    *__errno_location() = error;
    return result;
}
