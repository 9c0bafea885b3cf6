/* What is installed as `tsevents`: it runs the proved program and makes an exit status of what that says.
 *
 * The proved program reads and writes the streams that this one was given, so its output passes as it comes; it has no exit
 * status of its own, and says on standard error what went wrong. That goes through here, as it comes, and is looked at:
 *
 *   0  nothing was said: the log was read to its end
 *   1  a line was refused, and nothing failed
 *   2  something failed, or the program was called wrongly
 */
#define _GNU_SOURCE
#include <errno.h>
#include <fcntl.h>
#include <poll.h>
#include <signal.h>
#include <stdio.h>
#include <string.h>
#include <sys/prctl.h>
#include <sys/types.h>
#include <sys/wait.h>
#include <unistd.h>

/* The proved program; the install script names its place. */
#ifndef SONGPIGEON_PROGRAM
#define SONGPIGEON_PROGRAM "/usr/local/libexec/songpigeon/tsevents"
#endif

enum { READ_TO_ITS_END = 0, LINE_REFUSED = 1, FAILED = 2 };

/* How a line begins that says that a line of the log is refused; every other line says that something failed. */
static const char refused[] = "tsevents: line ";

/* Where nobody takes it, it is not said; the exit status still tells. */
static void say(const char *bytes, size_t length) {
    while (length > 0) {
        ssize_t put = write(STDERR_FILENO, bytes, length);
        if (put > 0) {
            bytes += put;
            length -= (size_t)put;
        } else if (put < 0 && errno == EAGAIN) {
            struct pollfd room = {STDERR_FILENO, POLLOUT, 0};
            poll(&room, 1, -1);
        } else if (put == 0 || errno != EINTR) {
            return;
        }
    }
}

static void say_line(const char *what, const char *why) {
    say("tsevents: ", strlen("tsevents: "));
    say(what, strlen(what));
    say(": ", 2);
    say(why, strlen(why));
    say("\n", 1);
}

static int cannot_run(void) {
    say_line("cannot run " SONGPIGEON_PROGRAM, strerror(errno));
    return FAILED;
}

/* A pipe that stands above the three standard streams: one of them may be closed, and is to stay so. */
static int open_pipe(int ends[2]) {
    int low[2];
    if (pipe2(low, O_CLOEXEC) < 0) {
        return -1;
    }
    for (int k = 0; k < 2; k++) {
        ends[k] = fcntl(low[k], F_DUPFD_CLOEXEC, 3);
    }
    close(low[0]);
    close(low[1]);
    return ends[0] < 0 || ends[1] < 0 ? -1 : 0;
}

/* In the child: the proved program, which ends where its parent ends. In a process namespace of its own it sees the parent
 * as 0. */
static void run(pid_t parent, int said, char **arguments) {
    static char name[] = "tsevents";
    static char *none[] = {name, NULL};
    if (dup2(said, STDERR_FILENO) < 0 || prctl(PR_SET_PDEATHSIG, SIGKILL) < 0) {
        _exit(cannot_run());
    }
    if (getppid() != parent && getppid() != 0) {
        _exit(FAILED); /* the parent has ended already */
    }
    if (arguments[0] != NULL) {
        arguments[0] = name;
    }
    execv(SONGPIGEON_PROGRAM, arguments[0] != NULL ? arguments : none);
    _exit(cannot_run());
}

/* What is said is passed on. Answers LINE_REFUSED where each line of it says that, FAILED where another says something
 * else or is cut off. */
static int pass_on(int said) {
    char bytes[4096];
    size_t column = 0; /* so many bytes of the present line are those of `refused` */
    int is_refusal = 1;
    int status = READ_TO_ITS_END;
    for (;;) {
        ssize_t got = read(said, bytes, sizeof bytes);
        if (got < 0 && errno == EINTR) {
            continue;
        }
        if (got <= 0) {
            return got == 0 && column == 0 && is_refusal ? status : FAILED;
        }
        say(bytes, (size_t)got);
        for (ssize_t k = 0; k < got; k++) {
            if (bytes[k] == '\n') {
                if (status != FAILED) {
                    status = is_refusal && column == sizeof refused - 1 ? LINE_REFUSED : FAILED;
                }
                column = 0;
                is_refusal = 1;
            } else if (is_refusal && column < sizeof refused - 1) {
                is_refusal = bytes[k] == refused[column];
                column++;
            }
        }
    }
}

int main(int count, char **arguments) {
    int ends[2];
    int ending = 0;
    pid_t parent = getpid();
    (void)count;
    signal(SIGCHLD, SIG_DFL); /* or the system may forget how the program ended */
    if (open_pipe(ends) < 0) {
        return cannot_run();
    }
    pid_t child = fork();
    if (child == 0) {
        run(parent, ends[1], arguments);
    }
    /* here alone: nobody may hear what is said, or a limit may keep it out of a file, and the program goes on */
    signal(SIGPIPE, SIG_IGN);
    signal(SIGXFSZ, SIG_IGN);
    if (child < 0) {
        return cannot_run();
    }
    close(ends[1]);
    int status = pass_on(ends[0]);
    while (waitpid(child, &ending, 0) < 0) {
        if (errno != EINTR) {
            return cannot_run();
        }
    }
    if (WIFSIGNALED(ending)) {
        say_line("ended by a signal", strsignal(WTERMSIG(ending)));
        return FAILED;
    }
    return WEXITSTATUS(ending) == 0 ? status : FAILED;
}
