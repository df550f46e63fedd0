/* Loaded before a program by LD_PRELOAD (Linux, glibc), it counts calls of one kind and makes some of them fail.
 *
 * FAULTS_KIND   which calls: memory, read, write, open or thread
 * FAULTS_FROM   the first call that fails, counted from 1; 0 or absent: none
 * FAULTS_MANY   how many fail from there on; 0: all
 * FAULTS_EVERY  of these only each so many-th fails
 * FAULTS_HOW    the error number of a call that fails; or 'short': it moves one byte; or 'pause': it sleeps
 *               FAULTS_PAUSE microseconds first and then does its work
 * FAULTS_PIECE  the most bytes that any read or write moves; 0 or absent: no bound
 * FAULTS_STACK  how many bytes the stack grows by first, so that it has them where there is no room later
 * FAULTS_TOLD   a file of 8 bytes that is there: the count of calls so far stands in it
 *
 * Calls count from the moment when this file is loaded, so not those that load the program. Writes to standard error
 * don't count.
 *
 * With FAULTS_TRY one start of the program serves for many runs, each in a copy of the process (fork):
 *
 *   here   The run itself goes on undisturbed. At each call of the kind that is to be tried, copies go on from there,
 *          one after the other, in which this call fails: alone, and with all behind it. A call that is made from
 *          where a thread was begun until all are joined isn't tried, since a copy has one thread alone, and can't
 *          join the others, also those that have ended (the C library has freed them): it is told as threaded.
 *   whole  Before the program's first instruction a copy begins for each call that is to be tried, likewise.
 *   serve  Before the program's first instruction a copy begins each time when four bytes come from the file 198, the
 *          seconds that it may take; how it ended is written to the file 199 (struct answer).
 *
 * For here and whole, standard output and standard error are files of their own, and
 *
 *   FAULTS_FROM, FAULTS_TO, FAULTS_EVERY  the calls that are tried: from, to (0: to the last), each so many-th
 *   FAULTS_HOWS    ways to fail with spaces between them: error numbers or 'short'; for memory one, of any number
 *   FAULTS_RIGHT   a name: NAME.out and NAME.err have what the undisturbed run writes
 *   FAULTS_STATUS  how it ends
 *   FAULTS_WORDS   whether a file that can't be read is told in words (near_files)
 *   FAULTS_LIMIT   the seconds that a copy may take
 *   FAULTS_UNTIL   the second of the monotonic clock from which on no copy begins (nor does one once 50 were wrong)
 *   FAULTS_FOUND   a file of the size of struct found, in which the counts stand
 *
 * What is right of a copy is told at `end_of`. */
#define _GNU_SOURCE
#include <dlfcn.h>
#include <errno.h>
#include <fcntl.h>
#include <pthread.h>
#include <stdarg.h>
#include <stddef.h>
#include <stdio.h>
#include <stdlib.h>
#include <string.h>
#include <sys/mman.h>
#include <sys/resource.h>
#include <sys/stat.h>
#include <sys/syscall.h>
#include <sys/uio.h>
#include <sys/wait.h>
#include <time.h>
#include <unistd.h>

extern void *__libc_malloc(size_t);
extern void *__libc_calloc(size_t, size_t);
extern void *__libc_realloc(void *, size_t);
extern void *__libc_memalign(size_t, size_t);

enum kind { NONE, MEMORY, READ, WRITE, OPEN, THREAD };
enum end { WHOLE, REFUSED, SILENT, WRONG };
enum { HOWS = 8, SHOWN = 10, MOST_WRONG = 50, FILES = 32, ASKED = 198, ANSWERED = 199 };

struct shown {
    long number, how, many, status, written;
    char said[88];
};

struct found {
    unsigned long calls, tried, left, threaded_from, threaded_to, wrong;
    unsigned long ends[HOWS][2][4];
    struct shown shown[SHOWN];
};

struct answer {
    long status, microseconds, kib;
};

struct text {
    const char *bytes;
    long size;
};

static const char *const kinds[] = {"", "memory", "read", "write", "open", "thread"};
static enum kind kind;
static unsigned long first, many, every = 1, piece, spare, *told = &spare;
static int error = EIO, is_short;
static struct timespec pause_time;
static int (*start_thread)(pthread_t *, const pthread_attr_t *, void *(*)(void *), void *);
static int (*join_thread)(pthread_t, void **);

/* Of a process whose copies are tried: what is tried, and what was found. */
static struct found *found;
static unsigned long from, to;
static int hows[HOWS], how_count, right_status, in_words, threads = 1;
static struct text right_out, right_err;
static unsigned limit;
static double until;
static long places[FILES], sizes[3];

static unsigned long number_of(const char *name) {
    const char *text = getenv(name);
    return text ? strtoul(text, NULL, 10) : 0;
}

static __attribute__((noinline)) void grow_stack(unsigned long size) {
    volatile char *room = __builtin_alloca(size);
    while (size > 4096) room[size -= 4096] = 0;
}

/* The bytes of a file that is there, which are shared with all who map it. */
static void *mapped(const char *name, long *size) {
    struct stat about;
    int file = syscall(SYS_openat, AT_FDCWD, name, O_RDWR);
    if (file < 0 || fstat(file, &about)) _exit(99);
    void *place = (void *)syscall(SYS_mmap, NULL, about.st_size ? about.st_size : 1, PROT_READ | PROT_WRITE, MAP_SHARED,
                                  file, 0);
    if (place == MAP_FAILED) _exit(99);
    syscall(SYS_close, file);
    if (size) *size = about.st_size;
    return place;
}

static struct text right_of(const char *part) {
    char name[4096];
    struct text text;
    snprintf(name, sizeof name, "%s.%s", getenv("FAULTS_RIGHT"), part);
    text.bytes = mapped(name, &text.size);
    return text;
}

/* Where each open file stands, and how long what was written so far is: a copy moves them for all. */
static void keep_files(void) {
    for (int file = 0; file < FILES; file++) places[file] = syscall(SYS_lseek, file, 0L, SEEK_CUR);
    for (int file = 1; file < 3; file++) {
        struct stat about;
        sizes[file] = fstat(file, &about) ? -1 : about.st_size;
    }
}

static void put_files_back(void) {
    for (int file = 1; file < 3; file++)
        if (sizes[file] >= 0) syscall(SYS_ftruncate, file, sizes[file]);
    for (int file = 0; file < FILES; file++)
        if (places[file] >= 0) syscall(SYS_lseek, file, places[file], SEEK_SET);
}

static long size_of(int file) {
    struct stat about;
    return fstat(file, &about) ? -1 : about.st_size;
}

/* Whether the text begins with what stands in the file. */
static int begins_with(struct text text, int file, long size) {
    static char bytes[65536];
    if (size < 0 || size > text.size) return 0;
    for (long at = 0; at < size;) {
        long got = syscall(SYS_pread64, file, bytes, sizeof bytes, at);
        if (got <= 0 || memcmp(bytes, text.bytes + at, got)) return 0;
        at += got;
    }
    return 1;
}

static int is_line_of(const char *said, long size, int status) {
    static const char begin[] = "the file ", end[] = " can't be read\n";
    char line[8];
    snprintf(line, sizeof line, "%d\n", status);
    if (!strcmp(said, line)) return 1;
    if (status != 5 || !in_words || size <= (long)(sizeof begin + sizeof end)) return 0;
    return !strncmp(said, begin, sizeof begin - 1) && !strcmp(said + size - (sizeof end - 1), end);
}

/* How a copy ended: as the undisturbed run (whole); with the status of its kind, 7, 5 or 6, and its line, and nothing
 * written or, where a write failed, a front of the text, not all of it (refused); of memory also without the line
 * (silent). A call that moves one byte changes nothing, and an interrupted one may change nothing. */
static enum end end_of(int status, int how, struct shown *shown) {
    static char said[4096];
    long written = size_of(1), size = size_of(2);
    int code = WIFEXITED(status) ? WEXITSTATUS(status) : -1, is_front = begins_with(right_out, 1, written);
    long got = syscall(SYS_pread64, 2, said, sizeof said - 1, 0L);
    said[got > 0 ? got : 0] = 0;
    shown->status = WIFEXITED(status) ? code : -WTERMSIG(status);
    shown->written = written;
    snprintf(shown->said, sizeof shown->said, "%.80s", said);
    if (code == right_status && is_front && written == right_out.size && size == right_err.size
        && begins_with(right_err, 2, size))
        return kind == MEMORY || how < 0 || how == EINTR ? WHOLE : WRONG;
    int least = kind == WRITE ? is_front && written < right_out.size : written == 0;
    if (how < 0 || !least || code != (kind == MEMORY ? 7 : kind == WRITE ? 6 : 5)) return WRONG;
    if (kind == MEMORY && size == 0) return SILENT;
    return size == got && is_line_of(said, size, code) ? REFUSED : WRONG;
}

/* Whether no more copies begin: the time is over, or many were wrong. */
static int is_over(void) {
    struct timespec now;
    clock_gettime(CLOCK_MONOTONIC, &now);
    return found->wrong >= MOST_WRONG || (until && now.tv_sec + now.tv_nsec / 1e9 > until);
}

static void judge(int status, unsigned long number, int place, int alone) {
    struct shown shown = {.number = number, .how = hows[place], .many = alone};
    enum end end = end_of(status, hows[place], &shown);
    found->ends[place][alone][end]++;
    if (end == WRONG && found->wrong++ < SHOWN) found->shown[found->wrong - 1] = shown;
    put_files_back();
}

/* Makes the copies in which a call fails. True in each of these, which go on. */
static int is_copy(unsigned long number) {
    keep_files();
    for (int place = 0; place < how_count; place++)
        for (int alone = 1; alone >= 0; alone--) {
            int status;
            if (!alone && hows[place] == EINTR) continue;
            pid_t copy = fork();
            if (copy < 0) _exit(98);
            if (!copy) {
                found = NULL;
                first = number, many = alone, every = 1;
                is_short = hows[place] < 0, error = is_short ? EIO : hows[place];
                alarm(limit);
                return 1;
            }
            while (waitpid(copy, &status, 0) < 0 && errno == EINTR) {}
            judge(status, number, place, alone);
        }
    found->tried++;
    return 0;
}

/* Tries a call of the undisturbed run where it stands. */
static void try_here(unsigned long number) {
    int before = errno;
    found->calls = number;
    if (number < from || (to && number > to) || (number - from) % every) return;
    if (__atomic_load_n(&threads, __ATOMIC_SEQ_CST) > 1 || syscall(SYS_gettid) != getpid()) {
        if (!found->threaded_from) found->threaded_from = number;
        found->threaded_to = number;
    } else if (found->left || is_over()) {
        if (!found->left) found->left = number;
    } else if (!is_copy(number)) {
        errno = before;
    }
}

/* Tries each call in a run from the beginning. The copies come back. */
static void try_whole(void) {
    for (unsigned long number = from; number <= to; number += every) {
        if (is_over()) {
            found->left = number;
            break;
        }
        if (is_copy(number)) return;
    }
    _exit(0);
}

/* Begins a copy each time when one is asked for. The copies come back. */
static void serve(void) {
    unsigned seconds;
    while (syscall(SYS_read, ASKED, &seconds, sizeof seconds) == sizeof seconds) {
        struct answer answer = {-1, 0, 0};
        struct rusage used;
        int status;
        pid_t copy = fork();
        if (!copy) {
            syscall(SYS_close, ASKED);
            syscall(SYS_close, ANSWERED);
            alarm(seconds);
            return;
        }
        if (copy > 0 && wait4(copy, &status, 0, &used) == copy) {
            answer.status = status;
            answer.microseconds = (used.ru_utime.tv_sec + used.ru_stime.tv_sec) * 1000000L + used.ru_utime.tv_usec
                                  + used.ru_stime.tv_usec;
            answer.kib = used.ru_maxrss;
        }
        if (syscall(SYS_write, ANSWERED, &answer, sizeof answer) != sizeof answer) break;
    }
    _exit(0);
}

static void begin_tries(const char *way) {
    const char *last = getenv("FAULTS_UNTIL");
    char words[256] = "", *rest = NULL;
    if (getenv("FAULTS_HOWS")) snprintf(words, sizeof words, "%s", getenv("FAULTS_HOWS"));
    for (char *word = strtok_r(words, " ", &rest); word && how_count < HOWS; word = strtok_r(NULL, " ", &rest))
        hows[how_count++] = strcmp(word, "short") ? atoi(word) : -1;
    if (last) until = strtod(last, NULL);
    from = first ? first : 1, first = 0;
    to = number_of("FAULTS_TO");
    limit = number_of("FAULTS_LIMIT");
    right_status = number_of("FAULTS_STATUS");
    in_words = number_of("FAULTS_WORDS");
    right_out = right_of("out"), right_err = right_of("err");
    found = mapped(getenv("FAULTS_FOUND"), NULL);
    if (!strcmp(way, "whole")) try_whole();
}

static void begin_plain(void) {
    const char *word = getenv("FAULTS_HOW");
    first = number_of("FAULTS_FROM");
    many = number_of("FAULTS_MANY");
    piece = number_of("FAULTS_PIECE");
    if (number_of("FAULTS_EVERY")) every = number_of("FAULTS_EVERY");
    if (word && atoi(word)) error = atoi(word);
    is_short = word && !strcmp(word, "short");
    if (word && !strcmp(word, "pause")) {
        unsigned long wait = number_of("FAULTS_PAUSE");
        pause_time.tv_sec = wait / 1000000;
        pause_time.tv_nsec = wait % 1000000 * 1000;
    }
}

__attribute__((constructor)) static void begin(void) {
    const char *name = getenv("FAULTS_TOLD"), *word = getenv("FAULTS_KIND"), *way = getenv("FAULTS_TRY");
    start_thread = (__typeof__(start_thread))dlsym(RTLD_NEXT, "pthread_create");
    join_thread = (__typeof__(join_thread))dlsym(RTLD_NEXT, "pthread_join");
    if (name) told = mapped(name, NULL);
    grow_stack(number_of("FAULTS_STACK"));
    begin_plain();
    if (way && !strcmp(way, "serve")) {
        serve();
        return;
    }
    for (enum kind one = MEMORY; word && one <= THREAD; one++)
        if (!strcmp(word, kinds[one])) kind = one;
    if (way) begin_tries(way);
}

/* Counts a call of the kind, and says whether it is one of those that fail. */
static int meets(enum kind one) {
    if (kind != one) return 0;
    unsigned long number = __atomic_add_fetch(told, 1, __ATOMIC_SEQ_CST);
    if (found) try_here(number);
    if (!first || number < first || (many && number - first >= many)) return 0;
    if ((number - first) % every) return 0;
    if (pause_time.tv_sec || pause_time.tv_nsec) {
        nanosleep(&pause_time, NULL);
        return 0;
    }
    return 1;
}

static int lacks_memory(void) {
    if (!meets(MEMORY)) return 0;
    errno = ENOMEM;
    return 1;
}

void *malloc(size_t size) { return lacks_memory() ? NULL : __libc_malloc(size); }
void *calloc(size_t count, size_t size) { return lacks_memory() ? NULL : __libc_calloc(count, size); }
void *realloc(void *old, size_t size) { return lacks_memory() ? NULL : __libc_realloc(old, size); }
void *memalign(size_t align, size_t size) { return lacks_memory() ? NULL : __libc_memalign(align, size); }
void *aligned_alloc(size_t align, size_t size) { return lacks_memory() ? NULL : __libc_memalign(align, size); }

int posix_memalign(void **out, size_t align, size_t size) {
    void *got = lacks_memory() ? NULL : __libc_memalign(align, size);
    if (!got) return ENOMEM;
    *out = got;
    return 0;
}

void *mmap(void *near, size_t size, int access, int flags, int file, off_t offset) {
    if (lacks_memory()) return MAP_FAILED;
    return (void *)syscall(SYS_mmap, near, size, access, flags, file, offset);
}

/* How many of these bytes a call moves. */
static size_t part(int fails, size_t size) {
    if (fails && size) return 1;
    return piece && size > piece ? piece : size;
}

ssize_t read(int file, void *out, size_t size) {
    int fails = meets(READ);
    if (fails && !is_short) return errno = error, -1;
    return syscall(SYS_read, file, out, part(fails, size));
}

ssize_t pread(int file, void *out, size_t size, off_t offset) {
    int fails = meets(READ);
    if (fails && !is_short) return errno = error, -1;
    return syscall(SYS_pread64, file, out, part(fails, size), offset);
}

ssize_t write(int file, const void *data, size_t size) {
    int fails = file != 2 && meets(WRITE);
    if (fails && !is_short) return errno = error, -1;
    return syscall(SYS_write, file, data, part(fails, size));
}

ssize_t writev(int file, const struct iovec *parts, int count) {
    int fails = file != 2 && meets(WRITE);
    if (fails && !is_short) return errno = error, -1;
    if ((fails || piece) && count) return syscall(SYS_write, file, parts->iov_base, part(fails, parts->iov_len));
    return syscall(SYS_writev, file, parts, count);
}

#define MODE_OF(flags) \
    va_list rest; \
    va_start(rest, flags); \
    mode_t mode = flags & (O_CREAT | O_TMPFILE) ? va_arg(rest, mode_t) : 0; \
    va_end(rest)

int open(const char *name, int flags, ...) {
    MODE_OF(flags);
    if (meets(OPEN)) return errno = error, -1;
    return syscall(SYS_openat, AT_FDCWD, name, flags, mode);
}

int openat(int folder, const char *name, int flags, ...) {
    MODE_OF(flags);
    if (meets(OPEN)) return errno = error, -1;
    return syscall(SYS_openat, folder, name, flags, mode);
}

int statx(int folder, const char *restrict name, int flags, unsigned mask, struct statx *restrict out) {
    if (meets(OPEN)) return errno = error, -1;
    return syscall(SYS_statx, folder, name, flags, mask, out);
}

int pthread_create(pthread_t *thread, const pthread_attr_t *like, void *(*body)(void *), void *with) {
    if (meets(THREAD)) return error;
    __atomic_add_fetch(&threads, 1, __ATOMIC_SEQ_CST);
    int failed = start_thread(thread, like, body, with);
    if (failed) __atomic_sub_fetch(&threads, 1, __ATOMIC_SEQ_CST);
    return failed;
}

/* A thread counts as living until it is joined; one that isn't, to the end. */
int pthread_join(pthread_t thread, void **end) {
    int failed = join_thread(thread, end);
    if (!failed) __atomic_sub_fetch(&threads, 1, __ATOMIC_SEQ_CST);
    return failed;
}
