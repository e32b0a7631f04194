/* Mutates pairs of files, runs a program that compares them, and asks of each run what `mutated_runs` says.

   usage: mutated_runs PROGRAM LIBRARY PAIRS MUTANTS SEED < /dev/null    (in the folder of the files)

   The library (`starting.py`) has the program wait before its `main`, so that a run is a fork. One mutant of fifty is
   run by a process that is started anew. PAIRS are such as `mutated_runs` writes. Prints figures, each as `N WHAT`, and
   writes what failed, made smaller, into the file `failed`. */
#define _GNU_SOURCE
#include <errno.h>
#include <fcntl.h>
#include <spawn.h>
#include <stdint.h>
#include <stdio.h>
#include <stdlib.h>
#include <string.h>
#include <sys/mman.h>
#include <sys/stat.h>
#include <sys/wait.h>
#include <unistd.h>

enum { ASKED = 100, TOLD = 101, MOST_WORDS = 200, ROOM = 1 << 22, MOST_FAILED = 20, ANEW = 50, TRIES = 4000 };

typedef struct { char *at; size_t size; } text;

/* a pair of files; `form` is t, j or m: lines to read, JSON lines or Markdown */
typedef struct { int is_documents, form, piped, is_numbers; text words, names[2], files[2]; } pair;

/* what a run did */
typedef struct { int status, is_lone, has_counts; unsigned long counts[4]; char said[2000], printed[200]; } ran;

extern char **environ;
static const char *program;
static int ask, tell, outputs[2], is_anew;
static char *output;
static unsigned long runs_made, statuses[2][3];

static void stop(const char *why) {
    fprintf(stderr, "mutated_runs: %s: %s\n", why, strerror(errno));
    exit(2);
}

/* ---- chance */

static uint64_t state;

static uint64_t draw(void) {
    uint64_t it = state += 0x9e3779b97f4a7c15u;
    it = (it ^ it >> 30) * 0xbf58476d1ce4e5b9u;
    it = (it ^ it >> 27) * 0x94d049bb133111ebu;
    return it ^ it >> 31;
}

static size_t below(size_t most) { return draw() % most; }

/* ---- mutations */

#define PIECE(bytes) {bytes, sizeof bytes - 1}
static const struct { const char *at; size_t size; } TABLE_PIECES[] = {
    PIECE("\""), PIECE("\""), PIECE("\"\""), PIECE("\","), PIECE(",\""), PIECE("\r"), PIECE("\n"), PIECE("\r\n"),
    PIECE("\n\n"), PIECE("\"\n\""), PIECE("\0"), PIECE("\xef\xbb\xbf"), PIECE("\xff"), PIECE("\xc2\x9b"),
    PIECE("\xe6\x97"), PIECE(","), PIECE(";"), PIECE(" "), PIECE("1"), PIECE("a"), PIECE("1e5"), PIECE("-0"),
    PIECE("1e0000000000000000000000000000000000001"), PIECE("1e1000000000000000000000000000000")},
DOCUMENT_PIECES[] = {
    PIECE("\""), PIECE("\""), PIECE("\\"), PIECE("\\u"), PIECE("\\ud83d"), PIECE("\\ude00"), PIECE("\\u0000"),
    PIECE("{"), PIECE("}"), PIECE("["), PIECE("]"), PIECE("[]"), PIECE("{}"), PIECE(","), PIECE(","), PIECE(":"),
    PIECE("0"), PIECE("1"), PIECE("-"), PIECE("-0"), PIECE("."), PIECE("e"), PIECE("E+"),
    PIECE("1e999999999999999999999999999999"), PIECE("0000000000000000000000000000000"), PIECE("null"), PIECE("true"),
    PIECE("NaN"), PIECE("\"id\":1,"), PIECE(",\"a\":1"), PIECE("\"\":"), PIECE("\n"), PIECE("\n"), PIECE("\n\n"),
    PIECE("\r"), PIECE("\r\n"), PIECE(" "), PIECE("\t"), PIECE("\x0c"), PIECE("\0"), PIECE("\x7f"), PIECE("\x1f"),
    PIECE("\xef\xbb\xbf"), PIECE("\xff"), PIECE("\xc2\x9b"), PIECE("\xe6\x97"), PIECE("\xed\xa0\x80"),
    PIECE("\xcc\x81"), PIECE("[[[[[[[["), PIECE("]]]]]]]]")};
#define COUNT(of) (sizeof of / sizeof *of)

/* Puts bytes into a text, if there is room. Returns how many. */
static size_t insert(text *in, size_t at, const char *bytes, size_t size) {
    if (in->size + size > ROOM) return 0;
    memmove(in->at + at + size, in->at + at, in->size - at);
    memcpy(in->at + at, bytes, size);
    in->size += size;
    return size;
}

static void take_out(text *in, size_t at, size_t size) {
    memmove(in->at + at, in->at + at + size, in->size - at - size);
    in->size -= size;
}

/* Makes a digit or a letter another one, so that what is read mostly stays what it is. */
static size_t make_other(text *in) {
    for (size_t at = below(in->size); at < in->size; at++) {
        char old = in->at[at];
        if (old >= '1' && old <= '9') in->at[at] = '1' + below(9);
        else if ((old | 32) >= 'a' && (old | 32) <= 'f') in->at[at] = (old & 32) | ('A' + below(6));
        else continue;
        return 1;
    }
    return 0;
}

/* Mutates a text, and returns how many bytes that touched. `other` is the text of the other side. */
static size_t mutate(text *in, const text *other, int is_documents) {
    if (in->size == 0 || below(10) < 4) {
        if (in->size > 0 && below(2)) return make_other(in);
        size_t piece = below(is_documents ? COUNT(DOCUMENT_PIECES) : COUNT(TABLE_PIECES)), at = below(in->size + 1);
        return is_documents ? insert(in, at, DOCUMENT_PIECES[piece].at, DOCUMENT_PIECES[piece].size)
                            : insert(in, at, TABLE_PIECES[piece].at, TABLE_PIECES[piece].size);
    }
    size_t at = below(in->size), size = 1 + below(8);
    char kept[64];
    if (size > in->size - at) size = in->size - at;
    switch (below(8)) {
    case 0: in->at[at] = below(2) ? (char)below(256) : "\",:[]{}\\0123456789.-+eE \n\rtfnu;"[below(32)]; return 1;
    case 1: in->at[at] ^= 1 << below(8); return 1;
    case 2: take_out(in, at, size); return size;
    case 3: memcpy(kept, in->at + at, size); return insert(in, at, kept, size);
    case 4:
        memcpy(kept, in->at + at, size);
        take_out(in, at, size);
        return insert(in, below(in->size + 1), kept, size);
    case 5:
        if (other->size == 0) return 0;
        at = below(other->size);
        size = 1 + below(sizeof kept);
        if (size > other->size - at) size = other->size - at;
        memcpy(kept, other->at + at, size);
        return insert(in, below(in->size + 1), kept, size);
    case 6:
        if (below(5)) return 0;
        in->size = at;
        return 1;
    default: return make_other(in);
    }
}

/* ---- runs */

static void write_file(const char *name, text content) {
    int file = open(name, O_WRONLY | O_CREAT | O_TRUNC, 0666);
    if (file < 0 || write(file, content.at, content.size) != (ssize_t)content.size) stop(name);
    close(file);
}

/* Has the program that waits run. Returns its status as `waitpid` tells it. */
static int fork_of(char **words, int is_piped) {
    static char bytes[1 << 16];
    uint32_t size = 4;
    bytes[size++] = is_piped ? 'p' : 'n';
    for (; *words; words++) {
        size_t length = strlen(*words) + 1;
        if (size + length > sizeof bytes) stop("words are too long");
        memcpy(bytes + size, *words, length);
        size += length;
    }
    uint32_t told = size - 4;
    memcpy(bytes, &told, 4);
    int status;
    if (write(ask, bytes, size) != size || read(tell, &status, 4) != 4) stop("the program does not wait");
    return status;
}

/* Starts a process with a library in front, if one is named, and with streams. Returns its number. */
static pid_t started(char **words, const char *library, int given, const int *others) {
    static char loaded[600], *with[2000];
    posix_spawn_file_actions_t streams;
    int count = 0;
    for (char **it = environ; *it && count < 1990; it++) with[count++] = *it;
    if (library) {
        snprintf(loaded, sizeof loaded, "LD_PRELOAD=%s", library);
        with[count++] = loaded;
        with[count++] = "STARTS_IN=.";
    }
    with[count] = NULL;
    posix_spawn_file_actions_init(&streams);
    posix_spawn_file_actions_adddup2(&streams, given, 0);
    posix_spawn_file_actions_adddup2(&streams, outputs[0], 1);
    posix_spawn_file_actions_adddup2(&streams, outputs[1], 2);
    if (others) {
        posix_spawn_file_actions_adddup2(&streams, others[0], ASKED);
        posix_spawn_file_actions_adddup2(&streams, others[1], TOLD);
    }
    pid_t made;
    if (posix_spawn(&made, program, &streams, NULL, words, with)) stop(program);
    posix_spawn_file_actions_destroy(&streams);
    return made;
}

/* Runs the program as a process of its own. */
static int process_of(char **words, int is_piped) {
    int status, given = open(is_piped ? "given" : "/dev/null", O_RDONLY | O_CLOEXEC);
    pid_t made = started(words, NULL, given, NULL);
    close(given);
    while (waitpid(made, &status, 0) != made) {}
    return status;
}

/* Returns the bytes of an output. */
static size_t read_output(int which) {
    struct stat told;
    if (fstat(outputs[which], &told) || told.st_size >= 4 * ROOM) stop("an output is too long");
    size_t size = told.st_size;
    if (pread(outputs[which], output, size, 0) != told.st_size) stop("an output can't be read");
    output[size] = 0;
    return size;
}

static int begins(const char *line, const char *with) { return strncmp(line, with, strlen(with)) == 0; }

/* Reads the counts of a report. */
static void read_report(ran *it, int form, size_t size) {
    const char *numbers[2] = {"%lu changed, %lu removed, %lu added, %lu the same.",
                              "{\"kind\":\"counts\",\"changed\":%lu,\"removed\":%lu,\"added\":%lu,\"same\":%lu,"};
    const char *alone = form == 't' ? "! column " : form == 'j' ? "{\"kind\":\"column\"" : "| column |";
    unsigned long *to = it->counts;
    for (char *line = output, *next; line < output + size; line = next) {
        next = memchr(line, '\n', output + size - line);
        if (!next) { it->has_counts = 0; return; }
        *next++ = 0;
        it->is_lone |= begins(line, alone);
        const char *from = line;
        if (form == 'm') {
            if (line != output) continue;
            from = strstr(line, "`: ");
            from = from ? from + 3 : line;
        }
        if (sscanf(from, numbers[form == 'j'], to, to + 1, to + 2, to + 3) == 4) it->has_counts++;
    }
}

/* Runs the program over two files, the second of which comes first where they are exchanged. */
static ran run(const pair *of, int first, int second, int is_piped) {
    static char *words[MOST_WORDS + 1];
    int count = 0, side[2] = {first, second};
    words[count++] = "dunkelva";
    words[count++] = "diff";
    for (char *at = of->words.at; at < of->words.at + of->words.size && count < MOST_WORDS - 2; at += strlen(at) + 1)
        words[count++] = at;
    for (int it = 0; it < 2; it++) words[count++] = is_piped && of->piped == side[it] ? "-" : of->names[side[it]].at;
    words[count] = NULL;
    is_piped = is_piped && of->piped < 2;
    if (is_piped) write_file("given", of->files[of->piped]);
    if (ftruncate(outputs[0], 0) || ftruncate(outputs[1], 0)) stop("an output can't be cut");
    int status = is_anew ? process_of(words, is_piped) : fork_of(words, is_piped);
    runs_made++;
    ran it = {.status = WIFSIGNALED(status) ? -WTERMSIG(status) : WEXITSTATUS(status)};
    size_t size = read_output(1);
    snprintf(it.said, sizeof it.said, "%s", output);
    if (size >= sizeof it.said || strlen(output) != size) strcpy(it.said, "more than a line\n\n");
    size = read_output(0);
    snprintf(it.printed, sizeof it.printed, "%s", output);
    if (it.status < 0 || it.status > 2 || it.status == 2) it.has_counts = size > 0;
    else read_report(&it, of->form, size);
    return it;
}

/* ---- what is asked of runs */

/* Says whether nothing is said but warnings: of a path at which no document has a part, of a repeated key, or of a
   number with a comma. */
static int only_warns(const char *said) {
    for (; *said; said = strchr(said, '\n') + 1)
        if (!begins(said, "dunkelva: warning: ") || !strchr(said, '\n')) return 0;
    return 1;
}

/* Returns what is wrong with a run by itself, or NULL. */
static const char *wrong_alone(const ran *it) {
    if (it->status < 0) return "a signal";
    if (it->status > 2) return "another status";
    if (it->status == 2) {
        const char *end = strchr(it->said, '\n');
        if (it->has_counts) return "status 2 with a report";
        return !end || end[1] || !begins(it->said, "dunkelva: ") ? "status 2 without one line" : NULL;
    }
    if (!only_warns(it->said)) return "a report and a line of a fault";
    if (it->has_counts != 1) return "no counts";
    int differ = it->counts[0] || it->counts[1] || it->counts[2] || it->is_lone;
    return differ != it->status ? "a status that is not that of the counts" : NULL;
}

/* Returns what is said after the name of a file. */
static const char *fault_of(const ran *it) {
    const char *at = strstr(it->said + strlen("dunkelva: "), ": ");
    return at ? at : it->said;
}

/* Returns how long a fault is without its hint, which depends on whether a file can be read twice. */
static size_t fault_length(const char *fault) {
    static const char *const hints[] = {": the columns are ", ": its columns are shown only ", ": did you mean ",
                                        ": is ", ": it looks like JSON lines", ": the file ", ": the line is empty",
                                        ": JSON has ", ": \"", ": the document has ", ": it has quotes written as ", ": it ends with a delimiter, ",
                                        ": documents nest ", ": paths are written "};
    size_t length = strcspn(fault, "\n");
    for (size_t it = 0; it < sizeof hints / sizeof *hints; it++) {
        const char *hint = strstr(fault, hints[it]);
        if (hint && (size_t)(hint - fault) < length) length = (size_t)(hint - fault);
    }
    return length;
}

/* Says whether a fault is another one with a hint behind it. */
static int adds_hint(const char *fault, const char *other) {
    size_t length = strcspn(other, "\n");
    return !strncmp(fault, other, length) && !strncmp(fault + length, ": ", 2);
}

/* Says whether two runs ended with the same fault. */
static int have_one_fault(const ran *one, const ran *other) {
    const char *left = fault_of(one), *right = fault_of(other);
    size_t length = fault_length(left);
    return (length == fault_length(right) && !memcmp(left, right, length)) || adds_hint(left, right) ||
           adds_hint(right, left);
}

/* Says whether a run ended because of the columns that the options choose, which depend on both files. */
static int is_choice(const ran *it) {
    return it->status == 2 &&
           (begins(it->said, "dunkelva: --") || begins(it->said, "dunkelva: no column is left to compare"));
}

/* Runs the program over a pair in four ways, and returns what is wrong, or NULL. */
static const char *wrong_with(const pair *of, ran *done) {
    for (int it = 0; it < 2; it++) write_file(of->names[it].at, of->files[it]);
    done[0] = run(of, 0, 1, 1);
    done[1] = run(of, 1, 0, 1);
    done[2] = run(of, 0, 0, 0);
    done[3] = run(of, 1, 1, 0);
    for (int it = 0; it < 4; it++) {
        const char *wrong = wrong_alone(done + it);
        if (wrong) return wrong;
    }
    unsigned long *ours = done[0].counts, *theirs = done[1].counts, *left = done[2].counts, *right = done[3].counts;
    int is_bad[2] = {done[2].status == 2, done[3].status == 2};
    /* with --numbers a column that one file has alone may have a number that can't be compared */
    int is_certain = (of->is_documents || !of->is_numbers) && !is_choice(done + 2) && !is_choice(done + 3);
    if (done[2].status == 1 || done[3].status == 1) return "a file that differs from itself";
    if (done[0].status != done[1].status) return "another status with the sides exchanged";
    if (done[0].status == 2) {
        if (is_choice(done) != is_choice(done + 1)) return "another fault with the sides exchanged";
        if (is_choice(done)) return NULL;
        if (!is_bad[0] && !is_bad[1]) return "a fault in none of the files";
        for (int it = 0; it < 2 && is_certain; it++)
            if (!(is_bad[0] && have_one_fault(done + it, done + 2)) &&
                !(is_bad[1] && have_one_fault(done + it, done + 3))) return "another fault";
        return NULL;
    }
    if (is_certain && (is_bad[0] || is_bad[1])) return "a report of a file with a fault";
    if (ours[0] != theirs[0] || ours[1] != theirs[2] || ours[2] != theirs[1] || ours[3] != theirs[3] ||
        done[0].is_lone != done[1].is_lone) return "other counts with the sides exchanged";
    if (!is_bad[0] && ours[0] + ours[1] + ours[3] != left[3]) return "counts that are not those of the left rows";
    if (!is_bad[1] && ours[0] + ours[2] + ours[3] != right[3]) return "counts that are not those of the right rows";
    return NULL;
}

/* Takes out of a pair what is not needed for it to fail. */
static void make_smaller(pair *of, ran *done) {
    static char kept[ROOM];
    int tries = 0;
    for (size_t size = ROOM; size > 0; size /= 2)
        for (int side = 0; side < 2; side++)
            for (size_t at = 0; at + size <= of->files[side].size && tries < TRIES;) {
                text *in = of->files + side;
                memcpy(kept, in->at + at, size);
                take_out(in, at, size);
                tries++;
                if (wrong_with(of, done)) continue;
                insert(in, at, kept, size);
                at += size;
            }
}

/* Writes a pair that failed, made smaller. */
static void tell_failed(FILE *to, pair *of, unsigned long number, unsigned mutant) {
    ran done[4];
    make_smaller(of, done);
    const char *wrong = wrong_with(of, done);
    fprintf(to, "pair %lu, mutant %u: %s\nwords:", number, mutant, wrong ? wrong : "it did not fail again");
    for (char *at = of->words.at; at < of->words.at + of->words.size; at += strlen(at) + 1) fprintf(to, " '%s'", at);
    fprintf(to, "\nstandard input: %s\n", of->piped < 2 ? of->names[of->piped].at : "none");
    for (int it = 0; it < 4; it++)
        fprintf(to, "run %d: status %d, printed %s, said %s\n", it, done[it].status, done[it].printed, done[it].said);
    for (int side = 0; side < 2; side++) {
        fprintf(to, "%s: \"", of->names[side].at);
        for (size_t at = 0; at < of->files[side].size; at++) {
            unsigned char byte = of->files[side].at[at];
            fprintf(to, byte < ' ' || byte > '~' || byte == '"' || byte == '\\' ? "\\x%02x" : "%c", byte);
        }
        fprintf(to, "\"\n");
    }
    fflush(to);
}

/* ---- all */

static uint32_t number_at(char **at) {
    uint32_t it;
    memcpy(&it, *at, 4);
    *at += 4;
    return it;
}

static text text_at(char **at) {
    text it;
    it.size = number_at(at);
    it.at = *at;
    *at += it.size;
    return it;
}

static text copy_of(text from, char *to) {
    memcpy(to, from.at, from.size);
    return (text){to, from.size};
}

int main(int count, char **words) {
    static char rooms[2][ROOM + 64];
    unsigned long pairs = 0, files = 0, bytes = 0, failed = 0, anew = 0;
    struct stat told;
    if (count != 6) return 2;
    program = words[1];
    output = malloc(4 * ROOM + 1);
    int file = open(words[3], O_RDONLY | O_CLOEXEC), null = open("/dev/null", O_RDONLY | O_CLOEXEC);
    if (file < 0 || fstat(file, &told)) stop(words[3]);
    char *at = mmap(NULL, told.st_size, PROT_READ, MAP_PRIVATE, file, 0), *end = at + told.st_size;
    for (int it = 0; it < 2; it++)
        outputs[it] = open(it ? ".said" : ".printed", O_RDWR | O_CREAT | O_TRUNC | O_APPEND | O_CLOEXEC, 0666);
    int asked[2], answered[2];
    if (pipe2(asked, O_CLOEXEC) || pipe2(answered, O_CLOEXEC)) stop("no pipe");
    ask = asked[1];
    tell = answered[0];
    char *named[2] = {words[1], NULL};
    pid_t server = started(named, words[2], null, (int[]){asked[0], answered[1]});
    FILE *to = fopen("failed", "w");
    for (unsigned long number = 0; at < end && failed < MOST_FAILED; number++) {
        pair of;
        of.is_documents = number_at(&at);
        of.form = number_at(&at);
        of.piped = number_at(&at);
        of.is_numbers = number_at(&at);
        of.words = text_at(&at);
        for (int it = 0; it < 2; it++) of.names[it] = text_at(&at);
        text whole[2];
        for (int it = 0; it < 2; it++) whole[it] = text_at(&at);
        for (unsigned mutant = 0; mutant < (unsigned)atoi(words[4]) && failed < MOST_FAILED; mutant++) {
            state = strtoull(words[5], NULL, 10) * 1000003 + number * 1009 + mutant;
            draw();
            size_t touched[2] = {0, 0};
            for (int it = 0; it < 2; it++) of.files[it] = copy_of(whole[it], rooms[it]);
            for (int left = "\1\1\2\2\3\5\x8\x8"[below(8)]; left > 0; left--) {
                int side = below(2);
                touched[side] += mutate(of.files + side, of.files + !side, of.is_documents);
            }
            is_anew = pairs % ANEW == ANEW - 1;
            ran done[4];
            unsigned long before = runs_made;
            const char *wrong = wrong_with(&of, done);
            pairs++;
            anew += is_anew * (runs_made - before);
            files += (touched[0] > 0) + (touched[1] > 0);
            bytes += touched[0] + touched[1];
            for (int it = 0; it < 4; it++)
                if (done[it].status >= 0 && done[it].status <= 2) statuses[of.is_documents][done[it].status]++;
            if (wrong) {
                failed++;
                tell_failed(to, &of, number, mutant);
            }
        }
    }
    fclose(to);
    close(ask);
    while (waitpid(server, NULL, 0) != server) {}
    printf("%lu pairs\n%lu mutated files\n%lu mutated bytes\n%lu runs as processes\n%lu failed\n", pairs, files, bytes, anew,
           failed);
    for (int it = 0; it < 6; it++)
        printf("%lu runs of %s with status %d\n", statuses[it / 3][it % 3], it / 3 ? "documents" : "tables", it % 3);
    return 0;
}
