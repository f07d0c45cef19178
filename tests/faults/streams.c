/* A stand-in for `ways` with a deliberate fault in its reading or writing, to show that the test of the streams can
 * fail. TRUE_WAYS is the true program, which makes the listing; the environment variable FAULT names the fault. Without
 * one the stand-in reads and writes as `ways` should. Its calls keep the names read and write, which the library of
 * streams/disturb.c takes; where _FORTIFY_SOURCE is set they may get others. */
#undef _FORTIFY_SOURCE
#define _GNU_SOURCE
#include <errno.h>
#include <fcntl.h>
#include <signal.h>
#include <stdio.h>
#include <stdlib.h>
#include <string.h>
#include <unistd.h>

enum { MOST_BOOK = 8393, PART = 1024, MOST_LISTING = 1 << 20, CLOSING = 10 };

static char book[MOST_BOOK], listing[MOST_LISTING];

static int fault(const char *name) {
    const char *asked = getenv("FAULT");
    return asked != NULL && strcmp(asked, name) == 0;
}

/* ---- what is said */

static void say(const char *what) {
    const char *cause = strerror(errno);
    int stream = fault("a message stands on standard output") ? STDOUT_FILENO : STDERR_FILENO;
    if (fault("nothing is said")) return;
    if (fault("the cause is not said")) dprintf(stream, "ways: %s\n", what);
    else dprintf(stream, "ways: %s: %s\n", what, cause);
}

/* ---- writing */

/* Whether an interrupted write is made again; else the part ends here, done or failed. */
static int patient_writer(void) {
    static int interruptions;
    if (fault("an interrupted write has failed") || fault("an interrupted write is done")) return 0;
    return !fault("60,000 interrupted writes are too many") || ++interruptions < 60000;
}

/* Whether a write that took nothing is made again. */
static int tries_nothing_again(void) {
    if (errno == EINTR && fault("a write that took nothing is tried again after an interrupted one")) return 1;
    return fault("a write that took nothing is tried again");
}

/* Whether a part was written. */
static int send_part(const char *bytes, size_t count) {
    for (size_t done = 0; done < count;) {
        ssize_t put = write(STDOUT_FILENO, bytes + done, count - done);
        if (put < 0 && errno == EINTR && patient_writer()) continue;
        if (put < 0 && fault("a failed write is tried again once") && write(STDOUT_FILENO, "", 0) == 0)
            put = write(STDOUT_FILENO, bytes + done, count - done);
        if (put < 0) return errno == EINTR && fault("an interrupted write is done");
        if (put == 0 && tries_nothing_again()) continue;
        if (put == 0) return fault("a write that took nothing is done");
        done += (size_t)put;
        if (done < count && fault("the rest of a short write is lost")) return 1;
        if (done < count && fault("a short write has failed")) return 0;
        if (done < count && fault("the second write of a part is not tested")) /* any answer will do */
            return write(STDOUT_FILENO, bytes + done, count - done) >= -1;
    }
    return 1;
}

/* How many bytes the next part has: 1,024 lines and, if the listing ends there, the closing line. */
static size_t part_of(const char *bytes) {
    size_t length = 0;
    for (int lines = 0; lines < PART && bytes[length] == 'A'; lines++) length += strcspn(bytes + length, "\n") + 1;
    return bytes[length] == 'A' ? length : strlen(bytes);
}

/* Prints the listing part by part; the true program searches for a while between two parts. */
static void print(void) {
    for (const char *at = listing; *at != 0; at += part_of(at), usleep(1000)) {
        if (send_part(at, part_of(at))) continue;
        if (fault("a failed write is passed over")) continue;
        say("the listing is cut off");
        if (fault("the closing line is printed after a failed write"))
            send_part(listing + strlen(listing) - CLOSING, CLOSING);
        if (!fault("every failed write is said, and the next part is printed")) return;
    }
    if (fault("a whole listing is said to be cut off")) say("the listing is cut off");
}

/* ---- reading */

static int patient_reader(void) {
    static int interruptions;
    if (fault("an interrupted read has failed") || fault("an interrupted read is the end of the book")) return 0;
    return !fault("60,000 interrupted reads are too many") || ++interruptions < 60000;
}

/* Whether a read that failed is taken for the end of the book. */
static int taken_for_end(void) {
    if (errno == EINTR) return fault("an interrupted read is the end of the book");
    return fault("a failed read is the end of the book");
}

/* How many bytes the book has, or -1 if a read failed. */
static ssize_t receive(void) {
    ssize_t done = 0;
    while (done < MOST_BOOK) {
        ssize_t got = read(STDIN_FILENO, book + done, (size_t)(MOST_BOOK - done));
        if (got < 0 && errno == EINTR && patient_reader()) continue;
        if (got < 0 && fault("a failed read is tried again once"))
            got = read(STDIN_FILENO, book + done, (size_t)(MOST_BOOK - done));
        if (got < 0) return taken_for_end() ? done : -1;
        if (got == 0) break;
        done += got;
        if (fault("one read is the whole book")) break;
    }
    return done;
}

/* ---- the listing */

/* Lets the true program list the book, which a pipe has room for, without the library that disturbs this one. */
static void make_listing(size_t length) {
    int ends[2];
    if (pipe(ends) != 0 || write(ends[1], book, length) != (ssize_t)length) abort();
    close(ends[1]);
    if (ends[0] != STDIN_FILENO) { /* it is that number if standard input was closed */
        dup2(ends[0], STDIN_FILENO);
        close(ends[0]);
    }
    unsetenv("LD_PRELOAD");
    FILE *printed = popen("exec \"$TRUE_WAYS\"", "r");
    if (printed == NULL) abort();
    listing[fread(listing, 1, MOST_LISTING - 1, printed)] = 0;
    pclose(printed);
}

/* The faults of the closing line. */
static void change_closing(void) {
    char *closing = listing + strlen(listing) - CLOSING;
    if (*closing == 'F') return;
    if (fault("the closing line has no number")) strcpy(closing + 1, "\n");
    if (fault("the closing line counts itself")) closing[CLOSING - 2]++;
    if (fault("there is no closing line")) *closing = 0;
}

int main(void) {
    if (fault("a failed write is passed over")) signal(SIGPIPE, SIG_IGN);
    if (fault("a pipe is set not to wait")) fcntl(STDOUT_FILENO, F_SETFL, O_NONBLOCK);
    ssize_t length = receive();
    if (length < 0) say("the book cannot be read");
    if (length < 0 && !fault("a book that cannot be read is refused")) return 0;
    make_listing(length < 0 ? 0 : (size_t)length);
    change_closing();
    print();
    return 0;
}
