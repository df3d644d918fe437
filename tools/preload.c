/* Loaded before a program (LD_PRELOAD). It is compiled for one of four uses. With -DFAULTS the program's
   requests for memory, reads and writes fail (tools/oom). The others are for tools/bench: with -DSLICES the
   program runs by turns with others, with -DCOUNTS callgrind counts each of its rows separately, and with
   -DBYTES it reports how much memory a row took. FAULTS needs no header, COUNTS valgrind's. */

#if defined FAULTS

/* Refuses requests for memory, fails reads and writes, or has them move one byte. Variables of the
   environment name the first and the last request that is met, counted from 1:

     REFUSE_FROM, REFUSE_TO   requests for memory, which are refused
     FAIL_FROM, FAIL_TO       reads and writes of standard input and output, which fail
     SHORT_FROM, SHORT_TO     reads and writes of several bytes there, which move one

   For each request that it met it writes a byte to the file descriptor MET_FILE. When the program ends it
   writes a byte to LEFT_FILE for each block of memory that was not freed. If HELD_FILE is set, it writes a
   line to it at each request for memory: how many bytes the program then has.

   If EACH_FILE is set instead, the program runs once and is copied at each request for memory: one copy
   continues with this request refused, one with this and all that follow refused, and then the program itself
   continues with none refused. When a copy ends, its standard output is written to the file descriptor
   EACH_FILE, including the part from before it was copied:

     said LEFT LENGTH         then LENGTH bytes follow; LEFT blocks of memory were not freed
     ended NUMBER ALL STATUS  the copy made at request NUMBER; ALL is whether all that follow were refused

   The last `said` belongs to the program itself. */

typedef unsigned long size_t;
typedef long ssize_t;

#define IS_SEEN __attribute__((visibility("default")))
#define NO_MEMORY 12
#define IO_FAILED 5
#define SYSTEM_READ 0
#define SYSTEM_WRITE 1
#define FROM_START 0
#define FROM_HERE 1
#define FILES 16
#define MAX_SAID (1 << 22)

void *__libc_malloc(size_t);
void *__libc_calloc(size_t, size_t);
void *__libc_realloc(void *, size_t);
void *__libc_memalign(size_t, size_t);
void __libc_free(void *);
size_t malloc_usable_size(void *);
char *getenv(const char *);
long syscall(long, ...);
int *__errno_location(void);
int fork(void);
int waitpid(int, int *, int);
long lseek(int, long, int);
int snprintf(char *, size_t, const char *, ...);
void *memcpy(void *, const void *, size_t);
void abort(void);

struct range {
    const char *from_name, *to_name;
    int is_read;
    unsigned long from, to, count;
};

static struct range refused = {.from_name = "REFUSE_FROM", .to_name = "REFUSE_TO"};
static struct range failed = {.from_name = "FAIL_FROM", .to_name = "FAIL_TO"};
static struct range shortened = {.from_name = "SHORT_FROM", .to_name = "SHORT_TO"};

static unsigned long number_in(const char *name) {
    const char *text = getenv(name);
    unsigned long number = 0;
    while (text && *text >= '0' && *text <= '9') number = number * 10 + (unsigned long)(*text++ - '0');
    return number;
}

/* Counts one request, and returns whether it is met. */
static int is_met(struct range *range) {
    if (!range->is_read) {
        range->is_read = 1;
        range->from = number_in(range->from_name);
        range->to = number_in(range->to_name);
    }
    range->count++;
    if (!range->from || range->count < range->from || range->count > range->to) return 0;
    if (getenv("MET_FILE")) syscall(SYSTEM_WRITE, number_in("MET_FILE"), "x", 1L);
    return 1;
}

/* How many blocks the program has, and how many bytes. */
static unsigned long blocks, held;

/* Whether the program is copied at each request, whether this is a copy, and the output so far. */
static int is_each, is_copy;
static char said[MAX_SAID];
static size_t said_count;

__attribute__((constructor)) static void begin(void) {
    is_each = getenv("EACH_FILE") != 0;
}

static void tell(const char *bytes, size_t count) {
    while (count) {
        long moved = syscall(SYSTEM_WRITE, number_in("EACH_FILE"), bytes, count);
        if (moved <= 0) abort();
        bytes += moved;
        count -= (size_t)moved;
    }
}

/* Keeps the standard output until the end. */
static ssize_t say(const void *bytes, size_t count) {
    if (count > MAX_SAID - said_count) abort();
    memcpy(said + said_count, bytes, count);
    said_count += count;
    return (ssize_t)count;
}

static void tell_said(void) {
    char line[64];
    tell(line, (size_t)snprintf(line, sizeof line, "said %lu %lu\n", blocks, said_count));
    tell(said, said_count);
}

/* Runs a copy to its end, in which this request, or this and all that follow, are refused. Returns whether
   this is the copy. A copy moves the positions of the open files, so they are restored. */
static int run_copy(int is_all) {
    long places[FILES];
    char line[64];
    int status, file, copy;
    for (file = 0; file < FILES; file++) places[file] = lseek(file, 0, FROM_HERE);
    copy = fork();
    if (copy < 0) abort();
    if (!copy) {
        is_copy = 1;
        refused.is_read = 1;
        refused.from = refused.count + 1;
        refused.to = is_all ? ~0ul : refused.from;
        return 1;
    }
    if (waitpid(copy, &status, 0) != copy) abort();
    for (file = 0; file < FILES; file++)
        if (places[file] >= 0 && (unsigned long)file != number_in("EACH_FILE"))
            lseek(file, places[file], FROM_START);
    tell(line, (size_t)snprintf(line, sizeof line, "ended %lu %d %d\n", refused.count + 1, is_all, status));
    return 0;
}

static void tell_held(void) {
    char line[32];
    if (getenv("HELD_FILE"))
        syscall(SYSTEM_WRITE, number_in("HELD_FILE"), line, (long)snprintf(line, sizeof line, "%lu\n", held));
}

static int is_refused(void) {
    tell_held();
    if (is_each && !is_copy && !run_copy(0) && !run_copy(1)) {
        refused.count++;
        return 0;
    }
    if (!is_met(&refused)) return 0;
    *__errno_location() = NO_MEMORY;
    return 1;
}

static void *given(void *block) {
    if (block) {
        blocks++;
        held += malloc_usable_size(block);
    }
    return block;
}

static void *given_again(void *block, size_t size) {
    size_t had = malloc_usable_size(block);
    void *moved = __libc_realloc(block, size);
    if (moved) held += malloc_usable_size(moved) - had;
    return moved;
}

IS_SEEN void *malloc(size_t size) {
    return is_refused() ? 0 : given(__libc_malloc(size));
}

IS_SEEN void *calloc(size_t count, size_t size) {
    return is_refused() ? 0 : given(__libc_calloc(count, size));
}

IS_SEEN void *realloc(void *block, size_t size) {
    if (is_refused()) return 0;
    return block ? given_again(block, size) : given(__libc_malloc(size));
}

IS_SEEN void *aligned_alloc(size_t alignment, size_t size) {
    return is_refused() ? 0 : given(__libc_memalign(alignment, size));
}

IS_SEEN int posix_memalign(void **block, size_t alignment, size_t size) {
    if (is_refused()) return NO_MEMORY;
    *block = given(__libc_memalign(alignment, size));
    return *block ? 0 : NO_MEMORY;
}

IS_SEEN void free(void *block) {
    if (block) {
        blocks--;
        held -= malloc_usable_size(block);
    }
    __libc_free(block);
}

__attribute__((destructor)) static void end(void) {
    if (is_each) tell_said();
    else
        for (; blocks; blocks--) syscall(SYSTEM_WRITE, number_in("LEFT_FILE"), "x", 1L);
}

/* Reads or writes, unless the call has to fail. */
static ssize_t move(long call, int file, const void *bytes, size_t count) {
    if (is_each && call == SYSTEM_WRITE && file == 1) return say(bytes, count);
    if (file == 0 || file == 1) {
        if (is_met(&failed)) {
            *__errno_location() = IO_FAILED;
            return -1;
        }
        if (count > 1 && is_met(&shortened)) count = 1;
    }
    return syscall(call, file, bytes, count);
}

IS_SEEN ssize_t read(int file, void *bytes, size_t count) {
    return move(SYSTEM_READ, file, bytes, count);
}

IS_SEEN ssize_t write(int file, const void *bytes, size_t count) {
    return move(SYSTEM_WRITE, file, bytes, count);
}

IS_SEEN ssize_t __read(int file, void *bytes, size_t count) {
    return move(SYSTEM_READ, file, bytes, count);
}

IS_SEEN ssize_t __write(int file, const void *bytes, size_t count) {
    return move(SYSTEM_WRITE, file, bytes, count);
}

#elif defined SLICES

/* Lets one of the programs of a turn run at a time, all on one processor, so that whatever else the machine
   does slows all of them alike. SLICES names a file of zeros that they share. SLICES_OF is their number,
   SLICES_ME the index of this one, and SLICES_ROWS the number of rows of the others that precede its first.

   Each program reads CLOCK_MONOTONIC only directly before and after what it times, and writes a line for each
   row. Before what it times it lets another program run, if it has run for long enough or is a row ahead of
   another. */

#define _GNU_SOURCE
#include <dlfcn.h>
#include <fcntl.h>
#include <linux/futex.h>
#include <sched.h>
#include <signal.h>
#include <stdatomic.h>
#include <stdbool.h>
#include <stdio.h>
#include <stdlib.h>
#include <sys/mman.h>
#include <sys/prctl.h>
#include <sys/syscall.h>
#include <time.h>
#include <unistd.h>

enum { MAX_PROGRAMS = 8, SLICE_NS = 5000000 };

struct shared {
    atomic_int running;             /* which program runs */
    atomic_int processor;           /* on which all run, and one more */
    atomic_int rows[MAX_PROGRAMS]; /* how many rows each has done */
    atomic_bool ended[MAX_PROGRAMS];
};

static struct shared *shared;
static int me, of;
static long began; /* when this slice began */

static int read_clock(clockid_t clock, struct timespec *time) {
    static int (*next)(clockid_t, struct timespec *);
    if (!next) next = (int (*)(clockid_t, struct timespec *))dlsym(RTLD_NEXT, "clock_gettime");
    return next(clock, time);
}

static long nanoseconds(void) {
    struct timespec time;
    read_clock(CLOCK_MONOTONIC, &time);
    return time.tv_sec * 1000000000L + time.tv_nsec;
}

static void wait_to_run(void) {
    for (int running; (running = shared->running) != me;)
        syscall(SYS_futex, &shared->running, FUTEX_WAIT, running, NULL, NULL, 0);
    began = nanoseconds();
}

static void let_run(int program) {
    shared->running = program;
    syscall(SYS_futex, &shared->running, FUTEX_WAKE, MAX_PROGRAMS, NULL, NULL, 0);
}

/* The next program that has not ended and is not a row ahead of this one; or this one. */
static int next_program(void) {
    for (int step = 1; step < of; step++) {
        int program = (me + step) % of;
        bool other_is_ahead = !shared->ended[me] && shared->rows[program] > shared->rows[me];
        if (!shared->ended[program] && !other_is_ahead) return program;
    }
    return me;
}

static bool is_ahead(void) {
    for (int program = 0; program < of; program++)
        if (!shared->ended[program] && shared->rows[program] < shared->rows[me]) return true;
    return false;
}

static void check(bool holds) {
    if (holds) return;
    perror("slices");
    _exit(2);
}

static void stay_on_one_processor(void) {
    int none = 0;
    atomic_compare_exchange_strong(&shared->processor, &none, sched_getcpu() + 1);
    cpu_set_t set;
    CPU_ZERO(&set);
    CPU_SET(shared->processor - 1, &set);
    check(sched_setaffinity(0, sizeof set, &set) == 0);
}

static int number(const char *name) {
    const char *text = getenv(name);
    return text ? atoi(text) : 0;
}

__attribute__((constructor)) static void begin(void) {
    const char *name = getenv("SLICES");
    if (!name) return;
    me = number("SLICES_ME");
    of = number("SLICES_OF");
    check(me < of && of <= MAX_PROGRAMS);
    check(prctl(PR_SET_PDEATHSIG, SIGTERM) == 0); /* ends with the shell that began it */
    int file = open(name, O_RDWR);
    check(file >= 0);
    void *memory = mmap(NULL, sizeof *shared, PROT_READ | PROT_WRITE, MAP_SHARED, file, 0);
    check(memory != MAP_FAILED);
    shared = memory;
    shared->rows[me] = number("SLICES_ROWS");
    wait_to_run();
    stay_on_one_processor();
}

__attribute__((destructor)) static void end(void) {
    if (!shared) return;
    shared->ended[me] = true;
    let_run(next_program());
}

int clock_gettime(clockid_t clock, struct timespec *time) {
    static bool is_timing;
    if (clock != CLOCK_MONOTONIC || !shared) return read_clock(clock, time);
    is_timing = !is_timing;
    if (is_timing && (is_ahead() || nanoseconds() - began >= SLICE_NS)) {
        int program = next_program();
        if (program != me) let_run(program);
        wait_to_run();
    }
    return read_clock(clock, time);
}

ssize_t write(int file, const void *bytes, size_t count) {
    static ssize_t (*next)(int, const void *, size_t);
    if (!next) next = (ssize_t (*)(int, const void *, size_t))dlsym(RTLD_NEXT, "write");
    if (shared && file == STDOUT_FILENO) shared->rows[me]++;
    return next(file, bytes, count);
}

#elif defined COUNTS

/* The program reads CLOCK_MONOTONIC before and after what it times. Callgrind counts only in between. At each
   write to standard output, which the bench makes once for each row, it writes out its counts since the last
   one. */

#define _GNU_SOURCE
#include <dlfcn.h>
#include <string.h>
#include <time.h>
#include <unistd.h>
#include <valgrind/callgrind.h>

int clock_gettime(clockid_t clock, struct timespec *time) {
    static int (*next)(clockid_t, struct timespec *);
    if (!next) next = (int (*)(clockid_t, struct timespec *))dlsym(RTLD_NEXT, "clock_gettime");
    int status = next(clock, time);
    if (clock == CLOCK_MONOTONIC) CALLGRIND_TOGGLE_COLLECT;
    return status;
}

ssize_t write(int file, const void *bytes, size_t count) {
    static ssize_t (*next)(int, const void *, size_t);
    if (!next) next = (ssize_t (*)(int, const void *, size_t))dlsym(RTLD_NEXT, "write");
    if (file == STDOUT_FILENO) {
        char line[80] = "";
        memcpy(line, bytes, count < sizeof line - 1 ? count : sizeof line - 1);
        CALLGRIND_DUMP_STATS_AT(line);
    }
    return next(file, bytes, count);
}

#elif defined BYTES

/* The program reads CLOCK_MONOTONIC before and after what it times. When it ends, this writes to the file
   descriptor BYTES_FILE by how many bytes its blocks of memory grew in between, the last time, and by how many
   from the first time on. */

#define _GNU_SOURCE
#include <dlfcn.h>
#include <errno.h>
#include <malloc.h>
#include <stdbool.h>
#include <stdio.h>
#include <stdlib.h>
#include <time.h>

void *__libc_malloc(size_t);
void *__libc_calloc(size_t, size_t);
void *__libc_realloc(void *, size_t);
void *__libc_memalign(size_t, size_t);
void __libc_free(void *);

static long held, grown, since;

/* The size of a block with the word before it. */
static long size_of(void *block) {
    return block ? (long)(malloc_usable_size(block) + sizeof(size_t)) : 0;
}

static void *taken(void *block) {
    held += size_of(block);
    return block;
}

void *malloc(size_t size) {
    return taken(__libc_malloc(size));
}

void *calloc(size_t count, size_t size) {
    return taken(__libc_calloc(count, size));
}

void *realloc(void *old, size_t size) {
    long before = size_of(old);
    void *block = __libc_realloc(old, size);
    if (block || size == 0) held += size_of(block) - before;
    return block;
}

int posix_memalign(void **to, size_t align, size_t size) {
    *to = taken(__libc_memalign(align, size));
    return *to ? 0 : ENOMEM;
}

void *aligned_alloc(size_t align, size_t size) {
    return taken(__libc_memalign(align, size));
}

void free(void *block) {
    held -= size_of(block);
    __libc_free(block);
}

int clock_gettime(clockid_t clock, struct timespec *time) {
    static int (*next)(clockid_t, struct timespec *);
    static bool is_timing;
    static bool has_first;
    static long before, first;
    if (!next) next = (int (*)(clockid_t, struct timespec *))dlsym(RTLD_NEXT, "clock_gettime");
    if (clock == CLOCK_MONOTONIC) {
        is_timing = !is_timing;
        if (is_timing) before = held;
        else grown = held - before;
        if (!has_first) first = held;
        has_first = true;
        since = held - first;
    }
    return next(clock, time);
}

__attribute__((destructor)) static void end(void) {
    const char *file = getenv("BYTES_FILE");
    if (file) dprintf(atoi(file), "%ld %ld\n", grown, since);
}

#else
#error "FAULTS, SLICES, COUNTS or BYTES has to be defined"
#endif
