/* Has calls of a process fail, for tests (.ci/failing.py): it stands before the C library.
   - FAIL_ALLOC=N: the N-th allocation is refused. With 0 none is, and the process says on standard error how many it made, as it ends.
   - TORN=PATH: the device of this file fails after its bytes, where it would be at its end.
   - UNSTARTED=N: the N-th thread of the process does not start. */
typedef unsigned long size;
extern void *__libc_malloc(size), *__libc_realloc(void *, size), *__libc_calloc(size, size);
extern char *getenv(const char *);
extern void *dlsym(void *, const char *);
typedef int starter(void *, const void *, void *(*)(void *), void *);
extern long atol(const char *), syscall(long, ...), readlink(const char *, char *, size);
extern int dprintf(int, const char *, ...), snprintf(char *, size, const char *, ...), strcmp(const char *, const char *), *__errno_location(void);

enum { SYS_READ = 0, EIO = 5, EAGAIN = 11, LONGEST_PATH = 4096 };

static long made, refused = -1;

__attribute__((constructor)) static void begin(void) {
    const char *word = getenv("FAIL_ALLOC");
    made = 0;
    refused = word ? atol(word) : -1;
}

__attribute__((destructor)) static void end(void) {
    if (!refused)
        dprintf(2, "%ld\n", made);
}

void *malloc(size bytes) { return ++made == refused ? 0 : __libc_malloc(bytes); }
void *realloc(void *old, size bytes) { return ++made == refused ? 0 : __libc_realloc(old, bytes); }
void *calloc(size count, size bytes) { return ++made == refused ? 0 : __libc_calloc(count, bytes); }

static int is_torn(int file) {
    const char *torn = getenv("TORN");
    char link[64], path[LONGEST_PATH + 1];
    long length;
    if (!torn)
        return 0;
    snprintf(link, sizeof link, "/proc/self/fd/%d", file);
    length = readlink(link, path, LONGEST_PATH);
    path[length < 0 ? 0 : length] = 0;
    return !strcmp(path, torn);
}

long read(int file, void *to, size most) {
    long count = syscall(SYS_READ, file, to, most);
    if (!count && most && is_torn(file)) {
        *__errno_location() = EIO;
        return -1;
    }
    return count;
}

int pthread_create(void *thread, const void *how, void *(*run)(void *), void *with) {
    static long asked;
    const char *unstarted = getenv("UNSTARTED");
    void *next = (void *)-1;
    if (unstarted && __atomic_add_fetch(&asked, 1, __ATOMIC_SEQ_CST) == atol(unstarted))
        return EAGAIN;
    return ((starter *)dlsym(next, "pthread_create"))(thread, how, run, with);
}
