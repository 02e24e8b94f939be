// A library that is loaded before the C library, for fail_alloc.sh, journal.sh and states.py: the allocation of number
// FAIL_NTH fails, counted from 1, and at the end the count of all is written to descriptor 3. A program of Rattle
// allocates by malloc and realloc alone. What is used of the C library is declared here, so that no header is needed.

void *__libc_malloc(unsigned long size);
void *__libc_realloc(void *old, unsigned long size);
char *getenv(const char *name);
unsigned long strtoul(const char *text, char **end, int base);
int dprintf(int descriptor, const char *format, ...);

static unsigned long count, nth;

// What was allocated before the program began does not count.
__attribute__((constructor)) static void begin(void) {
    const char *text = getenv("FAIL_NTH");
    nth = text ? strtoul(text, 0, 10) : 0;
    count = 0;
}

__attribute__((destructor)) static void end(void) {
    dprintf(3, "%lu\n", count);
}

void *malloc(unsigned long size) {
    return ++count == nth ? 0 : __libc_malloc(size);
}

void *realloc(void *old, unsigned long size) {
    return ++count == nth ? 0 : __libc_realloc(old, size);
}
