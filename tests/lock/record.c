/* Preloaded before the C library: the threads of one `period` access the lock's words one at a
   time, in an order that a seed picks, and each access is written down.

   RECORD_THREADS=N     number of threads: the first N that the program starts
   RECORD_SIZES=A,B     sizes in bytes of the blocks of memory that are watched
   RECORD_ORDER=WORD    even: each thread that asks for a turn is as likely as another
                        rounds: each makes one access, in some order, and then each again
                        late: one that would fall asleep comes last, the others as in even
                        runs: the last one goes on, 15 times in 16
   RECORD_SEED=N        the seed of the order
   RECORD_TO=FD         where the lines go once the last of these threads ends

   Watched blocks lie on pages that the threads may not touch, so no access of them is missed. An
   access faults. When its turn has come, its one instruction is executed on a second mapping of
   the same memory. Sleeps and wakes are calls of `syscall`, and go to the kernel. The next turn is
   given once each other thread asks for one, sleeps or has ended.

   Lines: `block PAGE BYTES`, then `THREAD KIND PAGE BYTE BEFORE AFTER GIVEN RESULT` of each access.
   The kinds are load, swap, add, cas, sleep, wake, returns, move and other. `returns` is the end of
   a sleep without a wake, `move` a store that is not atomic. GIVEN is what a `cas` or a sleep
   compares. RESULT is 1 for a sleep that was one, and the number that a wake woke. The last line is
   `end`, or `stuck` where all threads that are left sleep. */
#define _GNU_SOURCE
#include <dlfcn.h>
#include <errno.h>
#include <fcntl.h>
#include <linux/futex.h>
#include <pthread.h>
#include <signal.h>
#include <stdarg.h>
#include <stdint.h>
#include <stdio.h>
#include <stdlib.h>
#include <string.h>
#include <sys/mman.h>
#include <sys/resource.h>
#include <sys/syscall.h>
#include <ucontext.h>
#include <unistd.h>

enum { PAGE = 4096, PAGES = 128, MOST_THREADS = 64, MOST_LINES = 1 << 20, STACK = 1 << 17 };
enum { TRAP = 0x100, STUCK = 70, FAILED = 71 };

typedef uint64_t word;

extern void *__libc_malloc(size_t);
extern void *__libc_realloc(void *, size_t);
extern void __libc_free(void *);

enum state { RUNS, WANTS, HAS, SLEEPS, ENDED };
enum kind { LOAD, MOVE, SWAP, ADD, CAS, SLEEP, WAKE, RETURNS, OTHER };
static const char *const names[] = {"load",  "move", "swap",    "add",  "cas",
                                    "sleep", "wake", "returns", "other"};

struct line {
    int thread;
    enum kind kind;
    uint32_t offset;
    word before, after, given, result;
};

struct thread {
    enum state state;
    uint32_t turn;
    pid_t id;
    int moved;
    // the access that it makes next or makes now
    enum kind kind;
    uint32_t offset;
    word before, given, shifted;
    int base;
};

struct start {
    void *(*body)(void *);
    void *given;
    int number;
};

static uint8_t *seen, *real;
static size_t blocks, block_sizes[PAGES], sizes[2];
static struct thread threads[MOST_THREADS];
static int count, started, registered, ended, falling = -1, last = -1, to = -1, is_on;
static uint32_t guard;
static const char *order = "even";
static word seed;
static struct line *lines;
static size_t line_count;
static __thread int me __attribute__((tls_model("initial-exec"))) = -1;

static const int registers[] = {REG_RAX, REG_RCX, REG_RDX, REG_RBX, REG_RSP, REG_RBP,
                                REG_RSI, REG_RDI, REG_R8,  REG_R9,  REG_R10, REG_R11,
                                REG_R12, REG_R13, REG_R14, REG_R15};

// A system call without `errno`, which a handler of a signal must leave alone.
static long call(long number, long a, long b, long c, long d, long e, long f) {
    long result;
    register long r10 __asm__("r10") = d, r8 __asm__("r8") = e, r9 __asm__("r9") = f;
    __asm__ volatile("syscall"
                     : "=a"(result)
                     : "a"(number), "D"(a), "S"(b), "d"(c), "r"(r10), "r"(r8), "r"(r9)
                     : "rcx", "r11", "memory");
    return result;
}

static void fail(const char *why) {
    (void)!write(2, "record: ", 8);
    (void)!write(2, why, strlen(why));
    (void)!write(2, "\n", 1);
    _exit(FAILED);
}

static int is_watched(const void *at) {
    return seen && (const uint8_t *)at >= seen && (const uint8_t *)at < seen + PAGES * PAGE;
}

static word word_at(uint32_t offset) {
    return __atomic_load_n((word *)(real + (offset & ~7u)), __ATOMIC_SEQ_CST);
}

static void lock(void) {
    while (__atomic_exchange_n(&guard, 1, __ATOMIC_ACQUIRE))
        call(SYS_sched_yield, 0, 0, 0, 0, 0, 0);
}

static void unlock(void) { __atomic_store_n(&guard, 0, __ATOMIC_RELEASE); }

static void note(int thread, enum kind kind, uint32_t offset, word before, word after, word given,
                 word result) {
    if (line_count == MOST_LINES) fail("too many accesses");
    lines[line_count++] = (struct line){thread, kind, offset, before, after, given, result};
}

static void write_lines(const char *end) {
    FILE *out = fdopen(to, "w");
    if (!out) fail("RECORD_TO is no descriptor");
    for (size_t at = 0; at < blocks; at++) fprintf(out, "block %zu %zu\n", at, block_sizes[at]);
    for (size_t at = 0; at < line_count; at++) {
        struct line *l = &lines[at];
        fprintf(out, "%d %s %u %u %lu %lu %lu %lu\n", l->thread, names[l->kind], l->offset / PAGE,
                l->offset % PAGE, l->before, l->after, l->given, l->result);
    }
    fprintf(out, "%s\n", end);
    if (fclose(out)) fail("the lines cannot be written");
}

// The order of turns

static word any_below(word bound) {
    seed ^= seed << 13;
    seed ^= seed >> 7;
    seed ^= seed << 17;
    return (seed >> 11) % bound;
}

static int would_sleep(const struct thread *t) {
    return t->kind == SLEEP && (uint32_t)word_at(t->offset) == t->given;
}

// One of the threads that ask for a turn, which are of those where `which` says so, or none.
static int any_of(int (*which)(int)) {
    int found[MOST_THREADS], some = 0;
    for (int at = 0; at < count; at++)
        if (threads[at].state == WANTS && (!which || which(at))) found[some++] = at;
    return some ? found[any_below((word)some)] : -1;
}

static int is_early(int at) { return !would_sleep(&threads[at]); }

static int is_unmoved(int at) { return !threads[at].moved; }

static int pick(void) {
    int found = -1;
    if (*order == 'l') found = any_of(is_early);
    if (!strcmp(order, "runs") && last >= 0 && threads[last].state == WANTS && any_below(16))
        found = last;
    if (!strcmp(order, "rounds")) {
        found = any_of(is_unmoved);
        if (found < 0)
            for (int at = 0; at < count; at++) threads[at].moved = 0;
    }
    if (found < 0) found = any_of(0);
    return found;
}

// Gives the next turn, once no thread is on its way. The guard is held.
static void give_turn(void) {
    if (registered < count) return;
    for (int at = 0; at < count; at++)
        if (threads[at].state == RUNS || threads[at].state == HAS) return;
    last = pick();
    if (last < 0) {
        if (ended == count) return;
        write_lines("stuck");
        _exit(STUCK);
    }
    threads[last].state = HAS;
    threads[last].moved = 1;
    __atomic_store_n(&threads[last].turn, 1, __ATOMIC_SEQ_CST);
    call(SYS_futex, (long)&threads[last].turn, FUTEX_WAKE_PRIVATE, 1, 0, 0, 0);
}

// Waits until the thread that went to sleep last does sleep in the kernel.
static void await_sleeper(void) {
    if (falling < 0) return;
    char path[64], text[256];
    snprintf(path, sizeof path, "/proc/self/task/%d/stat", threads[falling].id);
    while (__atomic_load_n(&threads[falling].state, __ATOMIC_SEQ_CST) == SLEEPS) {
        long file = call(SYS_openat, AT_FDCWD, (long)path, O_RDONLY | O_CLOEXEC, 0, 0, 0);
        long got = file < 0 ? -1 : call(SYS_read, file, (long)text, sizeof text - 1, 0, 0, 0);
        if (got <= 0) fail("/proc cannot be read");
        call(SYS_close, file, 0, 0, 0, 0, 0);
        text[got] = 0;
        const char *after = strrchr(text, ')');
        if (after && after[2] == 'S') break;
        call(SYS_sched_yield, 0, 0, 0, 0, 0, 0);
    }
    falling = -1;
}

// Asks for a turn to make an access, and waits until it has come.
static void await_turn(enum kind kind, uint32_t offset, word given) {
    struct thread *t = &threads[me];
    lock();
    t->kind = kind, t->offset = offset, t->given = given, t->state = WANTS;
    give_turn();
    unlock();
    while (!__atomic_exchange_n(&t->turn, 0, __ATOMIC_SEQ_CST))
        call(SYS_futex, (long)&t->turn, FUTEX_WAIT_PRIVATE, 0, 0, 0, 0);
    await_sleeper();
    t->before = word_at(offset);
}

static void end_turn(word result) {
    struct thread *t = &threads[me];
    lock();
    note(me, t->kind, t->offset, t->before, word_at(t->offset), t->given, result);
    t->state = RUNS;
    unlock();
}

// Accesses

struct instruction {
    enum kind kind;
    int base;
};

static enum kind kind_of(int is_locked, int two, uint8_t code, int reg) {
    if (two) return !is_locked ? OTHER : code == 0xb1 ? CAS : code == 0xc1 ? ADD : OTHER;
    if (code == 0x87) return SWAP;
    if (is_locked)
        return (code == 0xff && reg < 2) || code == 0x01 || ((code | 2) == 0x83 && !reg) ? ADD
                                                                                         : OTHER;
    if (code == 0x8b || code == 0x3b || code == 0x39 || code == 0x85 ||
        ((code | 2) == 0x83 && reg == 7))
        return LOAD;
    if (code == 0x89 || code == 0xc7) return MOVE;
    return OTHER;
}

// What an instruction does with its operand in memory, and that operand's base register.
static struct instruction decoded(const uint8_t *at) {
    int is_locked = 0, rex = 0, two;
    for (; *at == 0xf0 || *at == 0x66 || *at == 0xf2 || *at == 0xf3; at++) is_locked |= *at == 0xf0;
    if ((*at & 0xf0) == 0x40) rex = *at++;
    two = *at == 0x0f;
    at += two;
    uint8_t code = *at++, mode = *at++;
    struct instruction found = {kind_of(is_locked, two, code, mode >> 3 & 7), mode & 7};
    if (found.base == 4) {
        found.base = *at & 7;
        if (found.base == 5 && mode < 0x40) fail("an operand without a base register");
    } else if (found.base == 5 && mode < 0x40) {
        fail("an operand beside the code");
    }
    found.base |= (rex & 1) << 3;
    // words have 64 bits
    if (!(rex & 8)) found.kind = OTHER;
    return found;
}

static void on_fault(int signal_number, siginfo_t *info, void *context) {
    greg_t *values = ((ucontext_t *)context)->uc_mcontext.gregs;
    (void)signal_number;
    if (!is_watched(info->si_addr) || me < 0)
        fail(me < 0 ? "a fault of another thread" : "a fault elsewhere");
    struct instruction found = decoded((const uint8_t *)values[REG_RIP]);
    await_turn(found.kind, (uint32_t)((uint8_t *)info->si_addr - seen),
               found.kind == CAS ? (word)values[REG_RAX] : 0);
    threads[me].base = registers[found.base];
    values[threads[me].base] += real - seen;
    threads[me].shifted = (word)values[threads[me].base];
    values[REG_EFL] |= TRAP;
}

static void on_step(int signal_number, siginfo_t *info, void *context) {
    greg_t *values = ((ucontext_t *)context)->uc_mcontext.gregs;
    (void)signal_number, (void)info;
    if (me < 0 || threads[me].state != HAS) fail("a trap of another thread");
    values[REG_EFL] &= ~(greg_t)TRAP;
    // a load may have written over its base register
    if ((word)values[threads[me].base] == threads[me].shifted)
        values[threads[me].base] -= real - seen;
    end_turn(0);
}

static long sleep_on(uint32_t offset, long operation, word expected, long time) {
    await_turn(SLEEP, offset, expected);
    struct thread *t = &threads[me];
    long address = (long)(real + offset), result;
    if (!would_sleep(t)) {
        result = call(SYS_futex, address, operation, (long)expected, time, 0, 0);
        if (result != -EAGAIN) fail("a sleep on another value");
        end_turn(0);
        return result;
    }
    lock();
    note(me, SLEEP, offset, t->before, t->before, expected, 1);
    t->state = SLEEPS;
    falling = me;
    give_turn();
    unlock();
    result = call(SYS_futex, address, operation, (long)expected, time, 0, 0);
    lock();
    if (t->state == SLEEPS) {
        note(me, RETURNS, offset, word_at(offset), word_at(offset), 0, (word)-result);
        t->state = RUNS;
    }
    unlock();
    return result;
}

static long wake_on(uint32_t offset, long operation, long most) {
    await_turn(WAKE, offset, (word)most);
    int sleepers = 0;
    // who is woken waits for the guard
    lock();
    long woken = call(SYS_futex, (long)(real + offset), operation, most, 0, 0, 0);
    for (int at = 0; at < count; at++)
        if (threads[at].state == SLEEPS && threads[at].offset == offset) {
            sleepers++;
            if (woken == 1) threads[at].state = RUNS;
        }
    unlock();
    if (sleepers > 1 || woken < 0 || woken > 1) fail("more than one thread sleeps on a word");
    end_turn((word)woken);
    return woken;
}

long syscall(long number, ...) {
    va_list given;
    va_start(given, number);
    long a = va_arg(given, long), b = va_arg(given, long), c = va_arg(given, long),
         d = va_arg(given, long);
    long e = va_arg(given, long), f = va_arg(given, long), result;
    va_end(given);
    if (number == SYS_futex && is_watched((void *)a) && is_on) {
        uint32_t offset = (uint32_t)((uint8_t *)a - seen);
        int operation = (int)b & FUTEX_CMD_MASK;
        if (me < 0 || (operation != FUTEX_WAIT && operation != FUTEX_WAKE))
            fail("another call on a watched word");
        result =
            operation == FUTEX_WAIT ? sleep_on(offset, b, (uint32_t)c, d) : wake_on(offset, b, c);
    } else {
        result = call(number, a, b, c, d, e, f);
    }
    if (result >= 0 || result < -4095) return result;
    errno = (int)-result;
    return -1;
}

// Memory

static void *watched_block(size_t bytes) {
    if (!real || is_on || (bytes != sizes[0] && bytes != sizes[1]) || blocks == PAGES) return 0;
    block_sizes[blocks] = bytes;
    return seen + PAGE * blocks++;
}

void *malloc(size_t bytes) {
    void *block = watched_block(bytes);
    return block ? block : __libc_malloc(bytes);
}

void free(void *block) {
    if (!is_watched(block)) __libc_free(block);
}

void *realloc(void *block, size_t bytes) {
    if (!is_watched(block)) return __libc_realloc(block, bytes);
    size_t old = block_sizes[(size_t)((uint8_t *)block - seen) / PAGE];
    void *moved = __libc_malloc(bytes);
    return moved ? memcpy(moved, block, old < bytes ? old : bytes) : 0;
}

// Threads

static void protect(int rights) {
    if (mprotect(seen, PAGES * PAGE, rights)) fail("memory cannot be protected");
}

static void *run_recorded(void *given) {
    struct start start = *(struct start *)given;
    __libc_free(given);
    stack_t stack = {
        .ss_size = STACK,
        .ss_sp = mmap(0, STACK, PROT_READ | PROT_WRITE, MAP_PRIVATE | MAP_ANONYMOUS, -1, 0)};
    if (stack.ss_sp == MAP_FAILED || sigaltstack(&stack, 0)) fail("no stack");
    me = start.number;
    lock();
    threads[me].id = (pid_t)call(SYS_gettid, 0, 0, 0, 0, 0, 0);
    registered++;
    unlock();
    void *result = start.body(start.given);
    lock();
    threads[me].state = ENDED;
    if (++ended == count) {
        protect(PROT_READ | PROT_WRITE);
        is_on = 0;
        write_lines("end");
    } else {
        give_turn();
    }
    unlock();
    me = -1;
    return result;
}

static void turn_on(void) {
    struct sigaction fault = {.sa_sigaction = on_fault, .sa_flags = SA_SIGINFO | SA_ONSTACK};
    struct sigaction step = {.sa_sigaction = on_step, .sa_flags = SA_SIGINFO | SA_ONSTACK};
    if (sigaction(SIGSEGV, &fault, 0) || sigaction(SIGTRAP, &step, 0)) fail("no handlers");
    is_on = 1;
    protect(PROT_NONE);
}

int pthread_create(pthread_t *thread, const pthread_attr_t *attributes, void *(*body)(void *),
                   void *given) {
    static int (*next)(pthread_t *, const pthread_attr_t *, void *(*)(void *), void *);
    if (!next) *(void **)&next = dlsym(RTLD_NEXT, "pthread_create");
    if (started == count) return next(thread, attributes, body, given);
    struct start *start = __libc_malloc(sizeof *start);
    if (!start) return EAGAIN;
    *start = (struct start){body, given, started++};
    if (started == 1) turn_on();
    return next(thread, attributes, run_recorded, start);
}

static word number_in(const char *name) {
    const char *text = getenv(name);
    if (!text) fail(name);
    return strtoul(text, 0, 10);
}

__attribute__((constructor)) static void begin(void) {
    const char *second = getenv("RECORD_SIZES");
    count = (int)number_in("RECORD_THREADS");
    sizes[0] = number_in("RECORD_SIZES");
    sizes[1] = second && strchr(second, ',') ? strtoul(strchr(second, ',') + 1, 0, 10) : sizes[0];
    seed = number_in("RECORD_SEED") * 0x9e3779b97f4a7c15u + 1;
    to = (int)number_in("RECORD_TO");
    if (getenv("RECORD_ORDER")) order = getenv("RECORD_ORDER");
    if (count < 1 || count > MOST_THREADS) fail("RECORD_THREADS is 1 to 64");
    int file = memfd_create("words", MFD_CLOEXEC);
    if (file < 0 || ftruncate(file, PAGES * PAGE)) fail("no memory");
    lines = mmap(0, sizeof *lines * MOST_LINES, PROT_READ | PROT_WRITE,
                 MAP_PRIVATE | MAP_ANONYMOUS | MAP_NORESERVE, -1, 0);
    seen = mmap(0, PAGES * PAGE, PROT_READ | PROT_WRITE, MAP_SHARED, file, 0);
    real = mmap(0, PAGES * PAGE, PROT_READ | PROT_WRITE, MAP_SHARED, file, 0);
    if (lines == MAP_FAILED || seen == MAP_FAILED || real == MAP_FAILED) fail("no memory");
    close(file);
    // on a busy machine turns come sooner, where this is allowed
    (void)setpriority(PRIO_PROCESS, 0, -10);
}
