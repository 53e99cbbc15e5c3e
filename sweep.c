/* What ./sweep has a program loaded with. It counts the program's requests for memory, and refuses the one whose number
   stands in REFUSED. A request for SIGN bytes is a sign of the program's, is never refused, and begins the counting or
   stops it; where COUNTED is 'memory', it begins at once. Where COUNTED is 'starts', threads that are to be started are
   counted in place of requests for memory, and one of them is refused. Where REFUSED is 'bytes', the bytes of these
   requests are counted, and nothing is refused. In the end it tells how many it counted, and how many blocks the
   program hasn't given back. */

#define SIGN 7777777UL

typedef unsigned long size;
typedef int starting(void *thread, const void *how, void *(*run)(void *), void *given);

void *__libc_malloc(size bytes);
void *__libc_calloc(size count, size bytes);
void *__libc_realloc(void *old, size bytes);
void *__libc_memalign(size align, size bytes);
void __libc_free(void *block);
void *dlsym(void *library, const char *name);
char *getenv(const char *name);
size strtoul(const char *text, char **end, int base);
int dprintf(int file, const char *format, ...);
long syscall(long number, ...);
int *__errno_location(void);

#define TRY_AGAIN 11
#define OUT_OF_MEMORY 12
#define LIBRARIES_BEHIND ((void *)-1L)

static size refused, counted, kept;
static int counting, counting_starts, counting_bytes;
static starting *start;

static int is_refused(size bytes) {
    size more = counting_bytes ? bytes : 1;
    return __atomic_add_fetch(&counted, more, __ATOMIC_SEQ_CST) == refused && refused;
}

static int refuses(size bytes) {
    if (bytes == SIGN) {
        counting = !counting;
        return 0;
    }
    if (!counting || !is_refused(bytes)) {
        return 0;
    }
    *__errno_location() = OUT_OF_MEMORY;
    return 1;
}

static void *given(void *block) {
    __atomic_add_fetch(&kept, block != 0, __ATOMIC_SEQ_CST);
    return block;
}

void *malloc(size bytes) {
    return refuses(bytes) ? 0 : given(__libc_malloc(bytes));
}

void *calloc(size count, size bytes) {
    return refuses(count * bytes) ? 0 : given(__libc_calloc(count, bytes));
}

void *realloc(void *old, size bytes) {
    void *block = refuses(bytes) ? 0 : __libc_realloc(old, bytes);
    return old ? block : given(block);
}

void *aligned_alloc(size align, size bytes) {
    return refuses(bytes) ? 0 : given(__libc_memalign(align, bytes));
}

void free(void *block) {
    __atomic_sub_fetch(&kept, block != 0, __ATOMIC_SEQ_CST);
    __libc_free(block);
}

int posix_memalign(void **to, size align, size bytes) {
    return (*to = aligned_alloc(align, bytes)) ? 0 : OUT_OF_MEMORY;
}

int pthread_create(void *thread, const void *how, void *(*run)(void *), void *given) {
    return counting_starts && is_refused(0) ? TRY_AGAIN : start(thread, how, run, given);
}

__attribute__((constructor)) static void begin(void) {
    const char *number = getenv("REFUSED"), *what = getenv("COUNTED");
    refused = number ? strtoul(number, 0, 10) : 0;
    counting_bytes = number && *number == 'b';
    counting = what && *what == 'm';
    counting_starts = what && *what == 's';
    start = (starting *)dlsym(LIBRARIES_BEHIND, "pthread_create");
}

static void tell(void) {
    dprintf(2, "requests: %lu\nkept: %lu\n", counted, kept);
}

__attribute__((destructor)) static void end(void) {
    tell();
}

/* A program that started threads ends by this one. 231 is the system's exit_group. */
__attribute__((noreturn)) void _exit(int status) {
    tell();
    for (;;) {
        syscall(231, status);
    }
}
