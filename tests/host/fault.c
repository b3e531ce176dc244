/* Runs a program and strikes at one of its system calls, for the tests of what a host program loses.
 *
 *   fault list FILE COMMAND..      write the name and first argument of each call to a file
 *   fault kill N COMMAND..         end the program (SIGKILL) as it makes its Nth call, which is not done
 *   fault fail N ERROR COMMAND..   let the Nth call do nothing and give this error, unless it is one for memory
 *
 * Calls are counted from 1, after the program was loaded. Exit status: the program's, or 128 + its signal; 125 where
 * programs cannot be traced here. For Linux on x86-64. */
#define _GNU_SOURCE
#include <errno.h>
#include <signal.h>
#include <stdio.h>
#include <stdlib.h>
#include <string.h>
#include <sys/ptrace.h>
#include <sys/syscall.h>
#include <sys/user.h>
#include <sys/wait.h>
#include <unistd.h>

enum { STATUS_BAD_USAGE = 2, STATUS_NO_TRACE = 125 };

struct strike {
    FILE *list;     /* where calls are listed, or null */
    long at;        /* the call that is struck; 0: none */
    int error;      /* that it gives; 0: the program is ended */
};

static const char *name_of(unsigned long long call)
{
    switch (call) {
    case SYS_write: return "write";
    case SYS_openat: return "openat";
    case SYS_close: return "close";
    case SYS_fsync: return "fsync";
    case SYS_renameat: return "renameat";
    case SYS_linkat: return "linkat";
    case SYS_unlinkat: return "unlinkat";
    case SYS_flock: return "flock";
    case SYS_fchmod: return "fchmod";
    default: return "other";
    }
}

/* Calls for memory, which a sanitizer cannot do without: they never fail. */
static int is_for_memory(unsigned long long call)
{
    return call == SYS_mmap || call == SYS_munmap || call == SYS_mprotect || call == SYS_brk;
}

static _Noreturn void fail(const char *what)
{
    fprintf(stderr, "fault: %s: %s\n", what, strerror(errno));
    exit(STATUS_NO_TRACE);
}

/* Lets the program go on to its next stop; gives its wait status. */
static int go_on(pid_t child, int signal)
{
    int status;
    if (ptrace(PTRACE_SYSCALL, child, NULL, (void *)(long)signal) != 0 && errno != ESRCH) /* it was ended */
        fail("ptrace");
    if (waitpid(child, &status, 0) != child)
        fail("waitpid");
    return status;
}

/* The program is about to make a call; gives whether it is made to fail. */
static int enter(pid_t child, const struct strike *strike, long count)
{
    struct user_regs_struct registers;
    if (ptrace(PTRACE_GETREGS, child, NULL, &registers) != 0)
        fail("ptrace");
    if (strike->list != NULL)
        fprintf(strike->list, "%s %llu\n", name_of(registers.orig_rax), registers.rdi);
    if (count != strike->at)
        return 0;
    if (strike->error == 0) {
        kill(child, SIGKILL);
        return 0;
    }
    if (is_for_memory(registers.orig_rax))
        return 0;
    registers.orig_rax = (unsigned long long)-1; /* no call at all */
    ptrace(PTRACE_SETREGS, child, NULL, &registers);
    return 1;
}

/* The program has made the call that is to fail. */
static void leave(pid_t child, const struct strike *strike)
{
    struct user_regs_struct registers;
    ptrace(PTRACE_GETREGS, child, NULL, &registers);
    registers.rax = (unsigned long long)-strike->error;
    ptrace(PTRACE_SETREGS, child, NULL, &registers);
}

static int trace(pid_t child, const struct strike *strike)
{
    int status, signal = 0;
    long count = 0;
    int is_inside = 0, fails = 0; /* a call */
    if (waitpid(child, &status, 0) != child || !WIFSTOPPED(status))
        fail("the program did not start");
    if (ptrace(PTRACE_SETOPTIONS, child, NULL, (void *)(PTRACE_O_TRACESYSGOOD | PTRACE_O_EXITKILL)) != 0)
        fail("ptrace");
    for (;;) {
        status = go_on(child, signal);
        signal = 0;
        if (WIFEXITED(status))
            return WEXITSTATUS(status);
        if (WIFSIGNALED(status))
            return 128 + WTERMSIG(status);
        if (WSTOPSIG(status) != (SIGTRAP | 0x80)) {
            signal = WSTOPSIG(status);
        } else if (!is_inside) {
            fails = enter(child, strike, ++count);
            is_inside = 1;
        } else {
            if (fails)
                leave(child, strike);
            is_inside = 0;
        }
    }
}

int main(int count, char **arguments)
{
    struct strike strike = { NULL, 0, 0 };
    int at = 3;
    if (count > 3 && strcmp(arguments[1], "list") == 0) {
        strike.list = fopen(arguments[2], "w");
    } else if (count > 3 && strcmp(arguments[1], "kill") == 0) {
        strike.at = atol(arguments[2]);
    } else if (count > 4 && strcmp(arguments[1], "fail") == 0) {
        strike.at = atol(arguments[2]);
        strike.error = atoi(arguments[3]);
        at = 4;
    } else {
        fprintf(stderr, "usage: fault list FILE COMMAND.. | kill N COMMAND.. | fail N ERROR COMMAND..\n");
        return STATUS_BAD_USAGE;
    }
    pid_t child = fork();
    if (child == 0) {
        if (ptrace(PTRACE_TRACEME, 0, NULL, NULL) != 0)
            fail("ptrace");
        execvp(arguments[at], arguments + at);
        fail(arguments[at]);
    }
    int status = trace(child, &strike);
    if (strike.list != NULL && fclose(strike.list) != 0)
        fail(arguments[2]);
    return status;
}
