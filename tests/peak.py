"""The most memory of a run of a program.

What the kernel counts for a child also counts what its parent had that forked it, and Python is
larger than many programs. So a small program in C forks the one that is measured.
"""
import pathlib
import subprocess

# Runs a program, prints its most memory in KiB as the last line of standard error, and ends with
# its status.
SOURCE = r"""
#include <stdio.h>
#include <sys/resource.h>
#include <sys/wait.h>
#include <unistd.h>

int main(int count, char **words) {
    struct rusage used;
    int status;
    pid_t child = fork();
    if (child == 0) {
        execv(words[1], words + 1);
        _exit(127);
    }
    if (child < 0 || wait4(child, &status, 0, &used) < 0) return 126;
    fprintf(stderr, "%ld\n", used.ru_maxrss);
    return WIFEXITED(status) ? WEXITSTATUS(status) : 125;
}
"""


def build(room):
    """Builds the program that measures in a folder, and returns its path."""
    source, program = pathlib.Path(room) / "measure.c", pathlib.Path(room) / "measure"
    source.write_text(SOURCE, encoding="utf-8")
    subprocess.run(["cc", "-O1", "-o", program, source], check=True)
    return str(program)


def measured(measure, command, **how):
    """Runs a command, and returns its most memory in KiB and its status. Standard error is not
    kept."""
    ran = subprocess.run([measure, *command], stderr=subprocess.PIPE, check=False, **how)
    return int(ran.stderr.split()[-1]), ran.returncode
