/*
 * Is loaded before the C library, and refuses requests for memory and for threads, as a system does that has none left: malloc and realloc then answer
 * NULL, and pthread_create an error.
 *
 * REFUSE has the number of the request that is refused, counted from 1, with ".." behind it where all that follow are refused too. Each one that is
 * refused writes a byte to file descriptor 9; where REFUSE isn't there none is refused, and each that is made writes one. The threads of a program are
 * counted together, in the order in which they come to ask.
 *
 * It includes nothing, so that a compiler alone can make it.
 */
typedef unsigned long size;
typedef int creates(void *thread, const void *attributes, void *(*run)(void *), void *argument);

#define EAGAIN 11
#define RTLD_NEXT ((void *)-1)

extern void *__libc_malloc(size bytes);
extern void *__libc_realloc(void *block, size bytes);
extern void *dlsym(void *handle, const char *name);
extern char *getenv(const char *name);
extern long strtol(const char *text, char **end, int base);
extern long write(int file, const void *bytes, size count);

static long made, first, last;
static creates *create;

__attribute__((constructor)) static void read_word(void) {
    char *word = getenv("REFUSE"), *end;
    create = (creates *)dlsym(RTLD_NEXT, "pthread_create");
    if (word) {
        first = strtol(word, &end, 10);
        last = *end ? __LONG_MAX__ : first;
    }
}

static int is_refused(void) {
    long number = __atomic_add_fetch(&made, 1, __ATOMIC_SEQ_CST);
    int refused = first <= number && number <= last;
    if (refused || !first)
        write(9, "", 1);
    return refused;
}

void *malloc(size bytes) { return is_refused() ? 0 : __libc_malloc(bytes); }

void *realloc(void *block, size bytes) { return is_refused() ? 0 : __libc_realloc(block, bytes); }

int pthread_create(void *thread, const void *attributes, void *(*run)(void *), void *argument) {
    return is_refused() ? EAGAIN : create(thread, attributes, run, argument);
}
