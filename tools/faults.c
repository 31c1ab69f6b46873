/* Makes one call of the C library fail in a program that this is preloaded into; tools/try-faults compiles it and says
   so to the program by the environment:

   FAULTS_KIND  what fails: `alloc`, `file` or `short`; with none of these nothing does, and the calls are counted
   FAULTS_AT    which of them, from 1 on
   FAULTS_TOLD  the file to report to
   FAULTS_FILE  the path of the file that a command works on, as the command is given it
   FAULTS_MARKS where set, allocations count only between a `[` and a `]` on standard output

   alloc: malloc, calloc and realloc return a null pointer.
   file: open, read, write, lseek, statx, fsync, fdatasync and ftruncate fail with EIO and do nothing, on standard input
   and output too, but not on standard error. A close can't fail here: the library of Rattle passes over its answer.
   short: a read or a write of several bytes moves one of them, on all descriptors.

   Only the program's own calls count, which are those that return into its file: what the loader and the C library take
   for themselves is left alone. The report is one line, written by calls of the system: at the fault its kind, the
   function, and how many calls had changed FAULTS_FILE until then (such as an open that empties it), a write that
   fails among them; where no fault came, at the end `none`, and how many allocations, file calls and calls of several
   bytes there were. */
#define _GNU_SOURCE
#include <errno.h>
#include <fcntl.h>
#include <link.h>
#include <stdarg.h>
#include <stdio.h>
#include <stdlib.h>
#include <string.h>
#include <sys/stat.h>
#include <sys/syscall.h>
#include <unistd.h>

enum kind { ALLOC, FILE_CALL, SHORT, KINDS };

static const char *const NAMES[KINDS] = {"alloc", "file", "short"};

/* What is asked for; with KINDS nothing is. */
static int asked = KINDS;
static long asked_at;
static const char *told, *file;
static int has_marks, is_marked;

/* What has happened. */
static long counts[KINDS];
static long changes;
static int is_reached;
static char is_file[1024];

/* Where the program's own file lies in memory. */
static uintptr_t program_start, program_end;

extern void *__libc_malloc(size_t);
extern void *__libc_calloc(size_t, size_t);
extern void *__libc_realloc(void *, size_t);

/* Writes the report. */
static void tell(const char *line, int len) {
    if (!told) return;
    int fd = syscall(SYS_openat, AT_FDCWD, told, O_WRONLY | O_CREAT | O_TRUNC, 0600);
    syscall(SYS_write, fd, line, len);
    syscall(SYS_close, fd);
}

/* Counts a call of a kind, and returns whether it is the one that fails. */
static int fails(int kind, const char *function, const void *caller) {
    uintptr_t at = (uintptr_t)caller;
    if (at < program_start || at >= program_end) return 0;
    if (kind == ALLOC && has_marks && !is_marked) return 0;
    if (++counts[kind] != asked_at || kind != asked) return 0;
    char line[100];
    is_reached = 1;
    tell(line, snprintf(line, sizeof line, "%s %s %ld\n", NAMES[kind], function, changes));
    return 1;
}

/* The first file that the loader lists is the program's. */
static int find_program(struct dl_phdr_info *info, size_t size, void *data) {
    (void)size, (void)data;
    program_start = UINTPTR_MAX;
    for (int i = 0; i < info->dlpi_phnum; i++) {
        const ElfW(Phdr) *part = &info->dlpi_phdr[i];
        if (part->p_type != PT_LOAD) continue;
        uintptr_t start = info->dlpi_addr + part->p_vaddr;
        if (start < program_start) program_start = start;
        if (start + part->p_memsz > program_end) program_end = start + part->p_memsz;
    }
    return 1;
}

__attribute__((constructor)) static void begin(void) {
    const char *kind = getenv("FAULTS_KIND"), *at = getenv("FAULTS_AT");
    told = getenv("FAULTS_TOLD");
    file = getenv("FAULTS_FILE");
    has_marks = getenv("FAULTS_MARKS") != NULL;
    for (int i = 0; i < KINDS; i++)
        if (kind && !strcmp(kind, NAMES[i])) asked = i;
    if (at) asked_at = atol(at);
    dl_iterate_phdr(find_program, NULL);
}

__attribute__((destructor)) static void end(void) {
    char line[100];
    if (is_reached) return;
    tell(line, snprintf(line, sizeof line, "none %ld %ld %ld\n", counts[ALLOC], counts[FILE_CALL], counts[SHORT]));
}

#define CALLER __builtin_return_address(0)

/* Fails a call of a file, but for standard error. */
#define FILE_FAILS(fd, function) ((fd) != 2 && fails(FILE_CALL, function, CALLER) && (errno = EIO))

void *malloc(size_t size) {
    if (fails(ALLOC, "malloc", CALLER)) return errno = ENOMEM, NULL;
    return __libc_malloc(size);
}

void *calloc(size_t count, size_t size) {
    if (fails(ALLOC, "calloc", CALLER)) return errno = ENOMEM, NULL;
    return __libc_calloc(count, size);
}

void *realloc(void *old, size_t size) {
    if (fails(ALLOC, "realloc", CALLER)) return errno = ENOMEM, NULL;
    return __libc_realloc(old, size);
}

/* Notes that a call changes the file, if it does. */
static void note(int fd, int is_changed) {
    changes += is_changed && fd >= 0 && fd < (int)sizeof is_file && is_file[fd];
}

int open(const char *path, int flags, ...) {
    va_list more;
    va_start(more, flags);
    int mode = flags & O_CREAT ? va_arg(more, int) : 0;
    va_end(more);
    if (FILE_FAILS(-1, "open")) return -1;
    int fd = syscall(SYS_openat, AT_FDCWD, path, flags, mode);
    if (fd >= 0 && fd < (int)sizeof is_file) is_file[fd] = file && !strcmp(path, file);
    note(fd, (flags & (O_CREAT | O_TRUNC)) != 0);
    return fd;
}

int close(int fd) {
    if (fd >= 0 && fd < (int)sizeof is_file) is_file[fd] = 0;
    return syscall(SYS_close, fd);
}

ssize_t read(int fd, void *bytes, size_t len) {
    if (FILE_FAILS(fd, "read")) return -1;
    if (len > 1 && fails(SHORT, "read", CALLER)) len = 1;
    return syscall(SYS_read, fd, bytes, len);
}

/* Follows the marks on standard output. */
static void follow(const char *bytes, size_t len) {
    for (size_t i = 0; i < len; i++)
        if (bytes[i] == '[' || bytes[i] == ']') is_marked = bytes[i] == '[';
}

ssize_t write(int fd, const void *bytes, size_t len) {
    note(fd, len > 0);
    if (FILE_FAILS(fd, "write")) return -1;
    if (len > 1 && fails(SHORT, "write", CALLER)) len = 1;
    if (fd == 1 && has_marks) follow(bytes, len);
    return syscall(SYS_write, fd, bytes, len);
}

off_t lseek(int fd, off_t offset, int whence) {
    if (FILE_FAILS(fd, "lseek")) return -1;
    return syscall(SYS_lseek, fd, offset, whence);
}

int statx(int fd, const char *restrict path, int flags, unsigned mask, struct statx *restrict found) {
    if (FILE_FAILS(fd, "statx")) return -1;
    return syscall(SYS_statx, fd, path, flags, mask, found);
}

int fsync(int fd) {
    if (FILE_FAILS(fd, "fsync")) return -1;
    return syscall(SYS_fsync, fd);
}

int fdatasync(int fd) {
    if (FILE_FAILS(fd, "fdatasync")) return -1;
    return syscall(SYS_fdatasync, fd);
}

int ftruncate(int fd, off_t len) {
    if (FILE_FAILS(fd, "ftruncate")) return -1;
    note(fd, 1);
    return syscall(SYS_ftruncate, fd, len);
}
