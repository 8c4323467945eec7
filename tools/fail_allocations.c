/* Preloaded into a process of one thread, makes each of its allocations fail in turn.

   At each allocation the process splits. In the child this allocation fails, as where no memory is left,
   and no other; the child goes on to its end. The parent waits for it, and goes on with the memory. The
   child reads standard input on from where the parent stands, and writes behind what the parent has
   written, on copies of the files.

   A child that hasn't ended after a minute is ended by an alarm. It needs Linux and the GNU C library.

   The file that FAIL_ALLOCATIONS names gets a record of each child, in order: a line with its exit status,
   or a signal's number below 0, and the lengths of all that is on its standard output and standard error,
   and then these.

   Where the file that FAIL_NEXT names is there instead, no process splits, and there may be threads. It holds
   a number of eight bytes, which whoever runs the process sets while it runs: each allocation makes a number
   above 0 one less, and the one that makes it 0 fails. */
#define _GNU_SOURCE
#include <errno.h>
#include <fcntl.h>
#include <stdio.h>
#include <stdlib.h>
#include <sys/mman.h>
#include <sys/stat.h>
#include <sys/wait.h>
#include <unistd.h>

#define SECONDS 60

extern void *__libc_malloc(size_t size);
extern void *__libc_calloc(size_t count, size_t size);
extern void *__libc_realloc(void *kept, size_t size);
extern void *__libc_memalign(size_t alignment, size_t size);

static int is_splitting;
static int records;
/* The number in the file that FAIL_NEXT names. */
static long *next;
/* What the child has on standard output and standard error. */
static int copies[2];

static void need(int holds)
{
    if (!holds) {
        perror("fail_allocations");
        _exit(120);
    }
}

static void write_all(int file, const char *bytes, ssize_t left)
{
    while (left > 0) {
        ssize_t n = write(file, bytes, left);
        need(n > 0);
        bytes += n;
        left -= n;
    }
}

/* Writes the first bytes of a file to another. */
static void copy(int from, int to, off_t length)
{
    char bytes[65536];
    for (off_t at = 0; at < length;) {
        ssize_t n = pread(from, bytes, length - at < 65536 ? length - at : 65536, at);
        need(n > 0);
        write_all(to, bytes, n);
        at += n;
    }
}

static int is_regular(int file)
{
    struct stat about;
    return fstat(file, &about) == 0 && S_ISREG(about.st_mode);
}

static void share_next(const char *name)
{
    int file = open(name, O_RDWR | O_CLOEXEC);
    need(file >= 0);
    void *shared = mmap(NULL, sizeof *next, PROT_READ | PROT_WRITE, MAP_SHARED, file, 0);
    need(shared != MAP_FAILED && close(file) == 0);
    next = shared;
}

__attribute__((constructor)) static void start(void)
{
    const char *name = getenv("FAIL_NEXT");
    if (name)
        share_next(name);
    name = getenv("FAIL_ALLOCATIONS");
    if (!name)
        return;
    records = open(name, O_WRONLY | O_CREAT | O_TRUNC | O_CLOEXEC, 0600);
    copies[0] = memfd_create("standard output", MFD_CLOEXEC);
    copies[1] = memfd_create("standard error", MFD_CLOEXEC);
    need(records >= 0 && copies[0] >= 0 && copies[1] >= 0);
    is_splitting = 1;
}

/* Gives the child its own files, in the state of the parent's. */
static void take_files(void)
{
    if (is_regular(0)) {
        off_t at = lseek(0, 0, SEEK_CUR);
        int input = open("/proc/self/fd/0", O_RDONLY);
        need(input >= 0 && lseek(input, at, SEEK_SET) == at && dup2(input, 0) == 0);
    }
    for (int i = 0; i < 2; i++)
        if (is_regular(i + 1))
            need(dup2(copies[i], i + 1) == i + 1);
}

static void copy_output(void)
{
    for (int i = 0; i < 2; i++) {
        need(ftruncate(copies[i], 0) == 0 && lseek(copies[i], 0, SEEK_SET) == 0);
        if (is_regular(i + 1))
            copy(i + 1, copies[i], lseek(i + 1, 0, SEEK_CUR));
    }
}

static void record(int status)
{
    char line[80];
    off_t lengths[2] = {lseek(copies[0], 0, SEEK_END), lseek(copies[1], 0, SEEK_END)};
    int ended = WIFEXITED(status) ? WEXITSTATUS(status) : -WTERMSIG(status);
    int n = snprintf(line, sizeof line, "%d %ld %ld\n", ended, (long)lengths[0], (long)lengths[1]);
    write_all(records, line, n);
    copy(copies[0], records, lengths[0]);
    copy(copies[1], records, lengths[1]);
}

static int is_next(void)
{
    if (__atomic_load_n(next, __ATOMIC_SEQ_CST) <= 0 || __atomic_sub_fetch(next, 1, __ATOMIC_SEQ_CST) != 0)
        return 0;
    errno = ENOMEM;
    return 1;
}

/* Splits, and says whether the allocation fails: in the child. */
static int fails(void)
{
    if (next)
        return is_next();
    if (!is_splitting)
        return 0;
    is_splitting = 0;
    copy_output();
    pid_t child = fork();
    need(child >= 0);
    if (child == 0) {
        alarm(SECONDS);
        take_files();
        errno = ENOMEM;
        return 1;
    }
    int status;
    need(waitpid(child, &status, 0) == child);
    record(status);
    is_splitting = 1;
    return 0;
}

void *malloc(size_t size)
{
    return fails() ? NULL : __libc_malloc(size);
}

void *calloc(size_t count, size_t size)
{
    return fails() ? NULL : __libc_calloc(count, size);
}

void *realloc(void *kept, size_t size)
{
    return fails() ? NULL : __libc_realloc(kept, size);
}

void *aligned_alloc(size_t alignment, size_t size)
{
    return fails() ? NULL : __libc_memalign(alignment, size);
}

int posix_memalign(void **made, size_t alignment, size_t size)
{
    void *bytes = fails() ? NULL : __libc_memalign(alignment, size);
    if (!bytes)
        return ENOMEM;
    *made = bytes;
    return 0;
}
