/* Preloaded before the C library: refuses one allocation, starts of threads, or one call on a stream, and tells of each.

   REFUSE_ALLOCATION=N  refuses the Nth call of malloc, calloc or realloc, counted from 1
   REFUSE_START=N       refuses the Nth start of a thread, counted from 1; `each` refuses all
   REFUSE_READ=N        the Nth read of standard input fails, counted from 1, and none after it
   REFUSE_WRITE=N       the Nth write to standard output fails, counted from 1, and none after it
   TELL=FD              where one byte is written for each: 'a' an allocation refused, 's' a start made, 'r' one refused,
                        'f' a read or a write that failed, 'g' one that came after it on the same stream
   TELL_ALL=1           'm' is written there for each allocation that is not refused

   Built by the tests with the kit's clang, without headers. Calls of the dynamic loader before `begin` do not count. */

extern void *__libc_malloc(unsigned long);
extern void *__libc_calloc(unsigned long, unsigned long);
extern void *__libc_realloc(void *, unsigned long);
extern int *__errno_location(void);
extern char *getenv(const char *);
extern unsigned long strtoul(const char *, char **, int);
extern long syscall(long, ...);
extern void *dlsym(void *, const char *);

typedef int start_of_thread(void *, const void *, void *(*)(void *), void *);

enum { OUT_OF_MEMORY = 12, TRY_AGAIN = 11, DEVICE_FAILED = 5 };
enum { CALL_READ = 0, CALL_WRITE = 1, STANDARD_INPUT = 0, STANDARD_OUTPUT = 1 };

static unsigned long allocations, starts;
static unsigned long refused_allocation, refused_start, refused_read, refused_write, reads, writes;
static int counts, refuses_each_start, tells_all, told = -1;
static start_of_thread *next_start;

static unsigned long number_in(const char *name) {
    const char *text = getenv(name);
    return text ? strtoul(text, 0, 10) : 0;
}

static void tell(char kind) {
    if (told >= 0) (void)syscall(CALL_WRITE, told, &kind, 1ul);
}

__attribute__((constructor)) static void begin(void) {
    const char *start = getenv("REFUSE_START");
    next_start = (start_of_thread *)dlsym((void *)-1l, "pthread_create");
    refuses_each_start = start && *start == 'e';
    refused_start = number_in("REFUSE_START");
    refused_allocation = number_in("REFUSE_ALLOCATION");
    refused_read = number_in("REFUSE_READ");
    refused_write = number_in("REFUSE_WRITE");
    tells_all = getenv("TELL_ALL") != 0;
    if (getenv("TELL")) told = (int)number_in("TELL");
    counts = 1;
}

static int is_refused(void) {
    if (!counts) return 0;
    if (__atomic_add_fetch(&allocations, 1, __ATOMIC_SEQ_CST) != refused_allocation) {
        if (tells_all) tell('m');
        return 0;
    }
    tell('a');
    *__errno_location() = OUT_OF_MEMORY;
    return 1;
}

void *malloc(unsigned long bytes) { return is_refused() ? 0 : __libc_malloc(bytes); }

void *calloc(unsigned long number, unsigned long bytes) { return is_refused() ? 0 : __libc_calloc(number, bytes); }

void *realloc(void *block, unsigned long bytes) { return is_refused() ? 0 : __libc_realloc(block, bytes); }

int pthread_create(void *thread, const void *attributes, void *(*body)(void *), void *given) {
    unsigned long nth = __atomic_add_fetch(&starts, 1, __ATOMIC_SEQ_CST);
    if (refuses_each_start || nth == refused_start) {
        tell('r');
        return TRY_AGAIN;
    }
    tell('s');
    return next_start(thread, attributes, body, given);
}

static int fails(unsigned long nth, unsigned long refused) {
    if (!counts || !refused || nth < refused) return 0;
    tell(nth == refused ? 'f' : 'g');
    if (nth == refused) *__errno_location() = DEVICE_FAILED;
    return nth == refused;
}

long read(int stream, void *bytes, unsigned long most) {
    if (stream == STANDARD_INPUT && fails(++reads, refused_read)) return -1;
    return syscall(CALL_READ, stream, bytes, most);
}

long write(int stream, const void *bytes, unsigned long most) {
    if (stream == STANDARD_OUTPUT && fails(++writes, refused_write)) return -1;
    return syscall(CALL_WRITE, stream, bytes, most);
}
