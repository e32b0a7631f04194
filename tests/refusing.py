"""Runs of a program that is refused what it asks of the system: requests for memory, reads and
writes.

A library that is loaded in front of the C library counts the requests, and refuses those that the
environment names:

| Variable | |
|---|---|
| `REFUSED=N` | the request for memory of this number, from 1 on |
| `READ_FAILS=N`, `WRITE_FAILS=N` | the read or the write of this number fails |
| `BYTEWISE` | a read or a write moves a byte at most |
| `READS_INTERRUPTED`, `WRITES_INTERRUPTED` | every other read or write is interrupted by a signal |
| `CHANGED=FILE`, `CHANGE_AT=N` | before the read of this number the file is cut or grows |
| `CHANGE_TO=SIZE`, `CHANGE_BY=TEXT` | to how many bytes, or the text that comes after its end |
| `ASKED` | at the end the counts are said on standard error |
"""
import os
import pathlib
import re
import subprocess

SECONDS = 120

SOURCE = r"""
#define _GNU_SOURCE
#include <dlfcn.h>
#include <errno.h>
#include <fcntl.h>
#include <stdio.h>
#include <stdlib.h>
#include <string.h>
#include <sys/syscall.h>
#include <unistd.h>

static long asked, refused = -1, reads, writes, read_fails = -1, write_fails = -1, change_at = -1;
static int is_ready, is_bytewise, reads_interrupted, writes_interrupted;

static long number_of(const char *name) {
    const char *number = getenv(name);
    return number ? atol(number) : -1;
}

static void prepare(void) {
    if (is_ready) return;
    refused = number_of("REFUSED");
    read_fails = number_of("READ_FAILS");
    write_fails = number_of("WRITE_FAILS");
    change_at = number_of("CHANGE_AT");
    is_bytewise = getenv("BYTEWISE") != NULL;
    reads_interrupted = getenv("READS_INTERRUPTED") != NULL;
    writes_interrupted = getenv("WRITES_INTERRUPTED") != NULL;
    is_ready = 1;
}

static int is_refused(void) {
    prepare();
    asked++;
    return asked == refused;
}

void *malloc(size_t size) {
    static void *(*real)(size_t);
    if (!real) real = dlsym(RTLD_NEXT, "malloc");
    if (is_refused()) { errno = ENOMEM; return NULL; }
    return real(size);
}

void *realloc(void *old, size_t size) {
    static void *(*real)(void *, size_t);
    if (!real) real = dlsym(RTLD_NEXT, "realloc");
    if (is_refused()) { errno = ENOMEM; return NULL; }
    return real(old, size);
}

void *aligned_alloc(size_t align, size_t size) {
    static void *(*real)(size_t, size_t);
    if (!real) real = dlsym(RTLD_NEXT, "aligned_alloc");
    if (is_refused()) { errno = ENOMEM; return NULL; }
    return real(align, size);
}

int posix_memalign(void **to, size_t align, size_t size) {
    static int (*real)(void **, size_t, size_t);
    if (!real) real = dlsym(RTLD_NEXT, "posix_memalign");
    if (is_refused()) return ENOMEM;
    return real(to, align, size);
}

/* Returns the error that a read or a write ends with, or 0. */
static int fault_of(long number, long fails, int is_interrupted) {
    if (number == fails) return EIO;
    return is_interrupted && number % 2 ? EINTR : 0;
}

/* Cuts a file, or puts a text after it. */
static void change(const char *name, const char *by) {
    int file = open(name, O_WRONLY | O_APPEND);
    if (file < 0) abort();
    if (by ? syscall(SYS_write, file, by, strlen(by)) < 0 : ftruncate(file, number_of("CHANGE_TO")))
        abort();
    close(file);
}

ssize_t read(int fd, void *to, size_t size) {
    static ssize_t (*real)(int, void *, size_t);
    if (!real) real = dlsym(RTLD_NEXT, "read");
    prepare();
    if (reads + 1 == change_at) change(getenv("CHANGED"), getenv("CHANGE_BY"));
    int fault = fault_of(++reads, read_fails, reads_interrupted);
    if (fault) { errno = fault; return -1; }
    return real(fd, to, is_bytewise && size > 1 ? 1 : size);
}

ssize_t write(int fd, const void *from, size_t size) {
    static ssize_t (*real)(int, const void *, size_t);
    if (!real) real = dlsym(RTLD_NEXT, "write");
    prepare();
    int fault = fault_of(++writes, write_fails, writes_interrupted);
    if (fault) { errno = fault; return -1; }
    return real(fd, from, is_bytewise && size > 1 ? 1 : size);
}

__attribute__((destructor)) static void tell(void) {
    if (getenv("ASKED")) {
        dprintf(2, "asked=%ld reads=%ld writes=%ld\n", asked, reads, writes);
    }
}
"""


def build(room):
    """Builds the library that refuses requests, in a folder, and returns its path."""
    source, library = f"{room}/refuse.c", f"{room}/refuse.so"
    pathlib.Path(source).write_text(SOURCE, encoding="utf-8")
    subprocess.run(["cc", "-shared", "-fPIC", "-O1", "-o", library, source, "-ldl"], check=True)
    return library


def run(command, file, library, folder=None, **environment):
    """Runs a command on a file, and returns what it printed, its status and its complaints. Without
    an end within `SECONDS` the status is None."""
    with open(file, "rb") as given:
        told = {**os.environ, "LD_PRELOAD": library, **environment}
        how = {
            "stdin": given,
            "capture_output": True,
            "env": told,
            "cwd": folder,
            "timeout": SECONDS,
            "check": False,
        }
        try:
            ran = subprocess.run(command, **how)
        except subprocess.TimeoutExpired:
            return b"", None, f"no end after {SECONDS} seconds"
    return ran.stdout, ran.returncode, ran.stderr.decode(errors="replace")


def counts(complaints):
    """Returns the counts that the library told; of a run that it could not tell of they are 0."""
    told = {name: int(number) for name, number in re.findall(r"(\w+)=(\d+)", complaints)}
    return {name: told.get(name, 0) for name in ("asked", "reads", "writes")}
