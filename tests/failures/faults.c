/* Loaded before the C library: makes the first reads of standard input, or writes to standard output, fail as the system
 * may let them fail, and counts the waits.
 *
 *   FAULTY_READS, FAULTY_WRITES  a letter for each call: a EAGAIN, i EINTR, e EIO, n ENOSPC, 0 the answer 0, 1 at most one byte
 *                                moved, + as it is. Behind the last letter every call is as it is
 *   FAULTY_SYNC                  the same for each time that a file is brought to its disk
 *   COUNTED_WAITS                the file that is told, at the end, how many waits there were and how many asked for no time
 */
#define _GNU_SOURCE
#include <dlfcn.h>
#include <errno.h>
#include <stdio.h>
#include <stdlib.h>
#include <string.h>
#include <time.h>
#include <unistd.h>

static int waits;
static int empty_waits;

/* The letter for the next call, 0 where there is none. */
static char next(const char *name, size_t *place) {
    const char *letters = getenv(name);
    if (letters == NULL || *place >= strlen(letters)) {
        return 0;
    }
    return letters[(*place)++];
}

/* Whether the letter says what the call answers, and that answer. */
static int answered(char letter, ssize_t *answer) {
    *answer = letter == '0' ? 0 : -1;
    switch (letter) {
    case 'a':
        errno = EAGAIN;
        return 1;
    case 'i':
        errno = EINTR;
        return 1;
    case 'e':
        errno = EIO;
        return 1;
    case 'n':
        errno = ENOSPC;
        return 1;
    case '0':
        return 1;
    default:
        return 0;
    }
}

ssize_t read(int file, void *bytes, size_t length) {
    static size_t place;
    ssize_t (*real)(int, void *, size_t) = (ssize_t(*)(int, void *, size_t))dlsym(RTLD_NEXT, "read");
    ssize_t answer;
    char letter = file == STDIN_FILENO ? next("FAULTY_READS", &place) : 0;
    return answered(letter, &answer) ? answer : real(file, bytes, letter == '1' && length > 1 ? 1 : length);
}

ssize_t write(int file, const void *bytes, size_t length) {
    static size_t place;
    ssize_t (*real)(int, const void *, size_t) = (ssize_t(*)(int, const void *, size_t))dlsym(RTLD_NEXT, "write");
    ssize_t answer;
    char letter = file == STDOUT_FILENO ? next("FAULTY_WRITES", &place) : 0;
    return answered(letter, &answer) ? answer : real(file, bytes, letter == '1' && length > 1 ? 1 : length);
}

int fsync(int file) {
    static size_t place;
    int (*real)(int) = (int (*)(int))dlsym(RTLD_NEXT, "fsync");
    ssize_t answer;
    return answered(next("FAULTY_SYNC", &place), &answer) ? (int)answer : real(file);
}

int nanosleep(const struct timespec *asked, struct timespec *left) {
    int (*real)(const struct timespec *, struct timespec *) =
        (int (*)(const struct timespec *, struct timespec *))dlsym(RTLD_NEXT, "nanosleep");
    waits++;
    empty_waits += asked->tv_sec == 0 && asked->tv_nsec == 0;
    return real(asked, left);
}

__attribute__((destructor)) static void tell(void) {
    const char *name = getenv("COUNTED_WAITS");
    if (name != NULL && waits > 0) {
        FILE *file = fopen(name, "w");
        if (file != NULL) {
            fprintf(file, "%d waits, %d of no time\n", waits, empty_waits);
            fclose(file);
        }
    }
}
