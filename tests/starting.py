"""Runs of a program that cost little: each is a fork of a process that waits before `main`.

A library that is loaded in front of the C library has the program wait once it is linked. For each
run it is told the words, forks, and the child goes on with what the program has before `main`. So a
run has fresh memory, and the program is loaded and linked once, which takes longer than a small
comparison. Standard output and standard error of the runs are files in memory, and standard input
is a pipe or empty.
"""
import os
import pathlib
import shutil
import struct
import subprocess
import tempfile

import runs

# where files are kept in memory, where the system has such a place
MEMORY = "/dev/shm" if os.access("/dev/shm", os.W_OK) else None
# the numbers of the streams by which runs are asked for and told of
ASKED, TOLD = 100, 101

SOURCE = r"""
#define _GNU_SOURCE
#include <dlfcn.h>
#include <fcntl.h>
#include <stdint.h>
#include <stdlib.h>
#include <string.h>
#include <sys/wait.h>
#include <unistd.h>

enum { ASKED = 100, TOLD = 101, SECONDS = 60 };
enum { MOST_BYTES = 1 << 17, MOST_WORDS = 1000, MOST_VARIABLES = 1000 };

/* Reads so many bytes; returns 0 where there are fewer. */
static int take(int fd, char *to, size_t size) {
    while (size > 0) {
        ssize_t count = read(fd, to, size);
        if (count <= 0) return 0;
        to += count;
        size -= count;
    }
    return 1;
}

/* Makes a pipe with the bytes of the file `given` the standard input. */
static void give(void) {
    static char bytes[1 << 16];
    int ends[2], file = open("given", O_RDONLY);
    off_t size = file < 0 ? -1 : lseek(file, 0, SEEK_END);
    if (size < 0 || pipe(ends)) _exit(99);
    if (size > 1 << 16 && fcntl(ends[1], F_SETPIPE_SZ, (int)size) < size) _exit(99);
    lseek(file, 0, SEEK_SET);
    for (ssize_t count; (count = read(file, bytes, sizeof bytes)) > 0;)
        if (write(ends[1], bytes, count) != count) _exit(99);
    close(file);
    close(ends[1]);
    dup2(ends[0], 0);
    close(ends[0]);
}

/* Waits for requests, and forks for each; returns in the child, with the words of its run. */
static void serve(int *count, char ***words) {
    static char text[MOST_BYTES];
    /* as the kernel lays them out: the words, an end, the environment, an end */
    static char *block[MOST_WORDS + 1 + MOST_VARIABLES + 1];
    if (chdir(getenv("STARTS_IN"))) _exit(99);
    for (;;) {
        uint32_t size;
        int status, number = 0, variables = 0;
        if (!take(ASKED, (char *)&size, 4)) _exit(0);
        if (size < 1 || size >= MOST_BYTES || !take(ASKED, text, size)) _exit(98);
        for (char *at = text + 1; at < text + size && number < MOST_WORDS; at += strlen(at) + 1)
            block[number++] = at;
        block[number] = NULL;
        while (environ[variables] && variables < MOST_VARIABLES) variables++;
        memcpy(block + number + 1, environ, variables * sizeof *environ);
        block[number + 1 + variables] = NULL;
        pid_t child = fork();
        if (child == 0) {
            close(ASKED);
            close(TOLD);
            if (text[0] == 'p') give();
            alarm(SECONDS);
            environ = block + number + 1;
            *count = number;
            *words = block;
            return;
        }
        if (child < 0 || waitpid(child, &status, 0) != child || write(TOLD, &status, 4) != 4)
            _exit(96);
    }
}

typedef void handler(void);
typedef int start(int (*)(int, char **, char **), int, char **, handler *, handler *, handler *,
                  void *);

/* Stands in for the function of the C library that runs what a program has before `main`, and
   `main`. */
int __libc_start_main(int (*main)(int, char **, char **), int count, char **words, handler *init,
                      handler *fini, handler *end, void *stack) {
    start *real = (start *)dlsym(RTLD_NEXT, "__libc_start_main");
    serve(&count, &words);
    return real(main, count, words, init, fini, end, stack);
}
"""


def build(room):
    """Builds the library in a folder, and returns its path."""
    source, library = f"{room}/start.c", f"{room}/start.so"
    pathlib.Path(source).write_text(SOURCE, encoding="utf-8")
    subprocess.run(["cc", "-shared", "-fPIC", "-O1", "-o", library, source, "-ldl"], check=True)
    return library


class Starter:
    """A program that waits before its `main`, and a folder in memory in which it runs."""

    def __init__(self, program, library):
        self.folder = pathlib.Path(tempfile.mkdtemp(prefix="starts-", dir=MEMORY))
        flags = os.O_RDWR | os.O_CREAT | os.O_APPEND
        self.outputs = [os.open(self.folder / name, flags) for name in (".printed", ".said")]
        (asked, self.ask), (self.tell, told) = os.pipe(), os.pipe()
        streams = [
            (os.POSIX_SPAWN_DUP2, *it)
            for it in zip((*self.outputs, asked, told), (1, 2, ASKED, TOLD))
        ]
        streams.append((os.POSIX_SPAWN_OPEN, 0, os.devnull, os.O_RDONLY, 0))
        how = {**os.environ, "LD_PRELOAD": library, "STARTS_IN": str(self.folder)}
        self.process = os.posix_spawn(program, [program], how, file_actions=streams)
        os.close(asked)
        os.close(told)
        self.count = 0

    def __enter__(self):
        return self

    def run(self, command, given, _folder=None):
        """Runs the program on the words of a command, the first of which is its name, in its own
        folder."""
        self.count += 1
        is_piped = "-" in command or b"-" in command
        if is_piped:
            (self.folder / "given").write_bytes(given)
        for output in self.outputs:
            os.ftruncate(output, 0)
        text = (b"p" if is_piped else b"n") + b"".join(
            os.fsencode(word) + b"\0" for word in command
        )
        os.write(self.ask, struct.pack("I", len(text)) + text)
        told = os.read(self.tell, 4)
        if len(told) < 4:
            raise RuntimeError("the program does not wait for words")
        status = os.waitstatus_to_exitcode(struct.unpack("i", told)[0])
        return runs.Ran(status, *(os.pread(it, os.fstat(it).st_size, 0) for it in self.outputs))

    def __exit__(self, *_):
        os.close(self.ask)
        os.waitpid(self.process, 0)
        for number in (self.tell, *self.outputs):
            os.close(number)
        shutil.rmtree(self.folder)
