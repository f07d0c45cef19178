/* A library whose read and write misbehave on demand. It is preloaded (LD_PRELOAD) into the program whose streams are
 * tested, and takes its reads from standard input and its writes to standard output; other files are left alone.
 *
 * The environment variables READS and WRITES say what the calls do, one step after the other. A step is a letter, a
 * number, a star and how many calls it is for:
 *
 *     a0*3     three calls go to the system as they are
 *     t7*100   a hundred calls move at most 7 bytes each
 *     t0*1     one call moves nothing and answers 0
 *     f28*1    one call moves nothing and fails with errno 28
 *
 * Calls after the last step go to the system as they are. CALLS is the number of an open file. Each call is noted there
 * in a line: r or w, the bytes that were asked for, the answer. */
#define _GNU_SOURCE
#include <errno.h>
#include <stdio.h>
#include <stdlib.h>
#include <sys/syscall.h>
#include <unistd.h>

/* What is to come: the steps that are left, and the one at hand with the calls that are left of it. */
typedef struct {
    const char *variable, *steps;
    char letter;
    size_t number;
    unsigned long times;
} script;

static script reads = {.variable = "READS"}, writes = {.variable = "WRITES"};

/* The letter of the step for this call. A script that cannot be read stops the program. */
static char next_step(script *s) {
    int used = 0;
    if (s->steps == NULL) s->steps = getenv(s->variable);
    if (s->steps == NULL) s->steps = "";
    while (s->times == 0 && *s->steps != 0) {
        if (sscanf(s->steps, "%c%zu*%lu %n", &s->letter, &s->number, &s->times, &used) != 3) abort();
        s->steps += used;
    }
    if (s->times == 0) return 'a';
    s->times--;
    return s->letter;
}

/* Notes a call. errno stays as it is. */
static void note(char letter, size_t asked, ssize_t answer) {
    const char *calls = getenv("CALLS");
    int error = errno;
    if (calls != NULL) dprintf(atoi(calls), "%c %zu %zd\n", letter, asked, answer);
    errno = error;
}

/* Does a call of the system as the step says. */
static ssize_t call(script *s, long number, int stream, void *bytes, size_t count) {
    char step = next_step(s);
    if (step == 't' && count > s->number) count = s->number;
    if (step != 'f') return syscall(number, stream, bytes, count);
    errno = (int)s->number;
    return -1;
}

ssize_t read(int stream, void *bytes, size_t count) {
    if (stream != STDIN_FILENO) return syscall(SYS_read, stream, bytes, count);
    ssize_t answer = call(&reads, SYS_read, stream, bytes, count);
    note('r', count, answer);
    return answer;
}

ssize_t write(int stream, const void *bytes, size_t count) {
    if (stream != STDOUT_FILENO) return syscall(SYS_write, stream, bytes, count);
    ssize_t answer = call(&writes, SYS_write, stream, (void *)bytes, count);
    note('w', count, answer);
    return answer;
}
