/* Refuses one call of a program that runs with this library before its others: an allocation, a read of its input, or a write to its
   output or to its errors.

   REFUSED is `memory`, `input`, `output` or `errors`, and REFUSED_AT the number of the call, from 1; 0 refuses none, and only counts.
   Where reads or writes are counted, each moves one byte. As the program ends, the number of the calls goes to the descriptor
   REFUSED_TELL, if that is set. No header is included, so that any compiler of C will do. */

typedef unsigned long size;

extern void *__libc_malloc(size);
extern void *__libc_calloc(size, size);
extern void *__libc_realloc(void *, size);
extern int *__errno_location(void);
extern char *getenv(const char *);
extern long atol(const char *);
extern int strcmp(const char *, const char *);
extern int dprintf(int, const char *, ...);
extern long syscall(long, ...);

enum calls { NONE, MEMORY, INPUT, OUTPUT, ERRORS };
enum { READ = 0, WRITE = 1, WRITEV = 20, EIO = 5, ENOMEM = 12, ENOSPC = 28 };

struct part {
    char *bytes;
    size length;
};

static enum calls counted = NONE;
static long at, count;
static const char *tell;

static int number_of(const char *name) {
    const char *text = getenv(name);
    return text ? atol(text) : 0;
}

__attribute__((constructor)) static void begin(void) {
    static const char *const names[] = {"", "memory", "input", "output", "errors"};
    const char *name = getenv("REFUSED");
    at = number_of("REFUSED_AT");
    tell = getenv("REFUSED_TELL");
    for (int calls = MEMORY; name && calls <= ERRORS; calls++)
        if (!strcmp(name, names[calls])) counted = calls;
}

__attribute__((destructor)) static void end(void) {
    counted = NONE;
    if (tell) dprintf(number_of("REFUSED_TELL"), "%ld", count);
}

/* Counts a call, and says whether it is the one that is refused. */
static int is_refused(enum calls calls, int error) {
    if (calls != counted || ++count != at) return 0;
    *__errno_location() = error;
    return 1;
}

void *malloc(size length) { return is_refused(MEMORY, ENOMEM) ? 0 : __libc_malloc(length); }

void *calloc(size number, size length) { return is_refused(MEMORY, ENOMEM) ? 0 : __libc_calloc(number, length); }

void *realloc(void *from, size length) { return is_refused(MEMORY, ENOMEM) ? 0 : __libc_realloc(from, length); }

static size moved(enum calls calls, size length) { return calls == counted && length > 1 ? 1 : length; }

long read(int file, void *bytes, size length) {
    enum calls calls = file ? NONE : INPUT;
    if (calls && is_refused(calls, EIO)) return -1;
    return syscall(READ, file, bytes, moved(calls, length));
}

static enum calls calls_of(int file) { return file == 1 ? OUTPUT : file == 2 ? ERRORS : NONE; }

long write(int file, const void *bytes, size length) {
    enum calls calls = calls_of(file);
    if (calls && is_refused(calls, ENOSPC)) return -1;
    return syscall(WRITE, file, bytes, calls ? moved(calls, length) : length);
}

long writev(int file, const struct part *parts, int number) {
    if (calls_of(file) == NONE || calls_of(file) != counted) return syscall(WRITEV, file, parts, number);
    while (number > 1 && !parts->length) parts++, number--;
    return number ? write(file, parts->bytes, parts->length) : 0;
}
