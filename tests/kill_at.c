/* kill_at N PROGRAM WORDS..: runs the program, and kills it (SIGKILL) where one of its threads enters its Nth system call,
   counted over all threads from 1. The calls by which it becomes the program don't count. Its status is 200 where it was
   killed so, else that of the program; 0 for N never kills. The last line of the file that KILL_AT_SAYS names is the
   number of that call, or how many there were. */
#define _GNU_SOURCE
#include <errno.h>
#include <signal.h>
#include <stdio.h>
#include <stdlib.h>
#include <string.h>
#include <sys/ptrace.h>
#include <sys/types.h>
#include <sys/wait.h>
#include <unistd.h>

static void fail(const char *what)
{
    fprintf(stderr, "kill_at: %s: %s\n", what, strerror(errno));
    exit(99);
}

static void say(long calls)
{
    const char *name = getenv("KILL_AT_SAYS");
    FILE *file = name ? fopen(name, "w") : NULL;
    if (file) {
        fprintf(file, "%ld\n", calls);
        fclose(file);
    }
}

int main(int count, char **words)
{
    if (count < 3)
        fail("a number and a program are missing");
    long last = atol(words[1]), calls = 0;
    pid_t program = fork();
    if (program == 0) {
        ptrace(PTRACE_TRACEME, 0, 0, 0);
        execvp(words[2], words + 2);
        fail(words[2]);
    }
    int status;
    if (waitpid(program, &status, 0) != program || !WIFSTOPPED(status))
        fail("the program didn't start");
    long options = PTRACE_O_TRACESYSGOOD | PTRACE_O_TRACECLONE | PTRACE_O_EXITKILL;
    if (ptrace(PTRACE_SETOPTIONS, program, 0, options) || ptrace(PTRACE_SYSCALL, program, 0, 0))
        fail("trace");
    for (;;) {
        pid_t thread = waitpid(-1, &status, __WALL);
        if (thread < 0)
            fail("wait");
        if (WIFEXITED(status) || WIFSIGNALED(status)) {
            if (thread != program)
                continue;
            say(calls);
            return WIFEXITED(status) ? WEXITSTATUS(status) : 128 + WTERMSIG(status);
        }
        int signal = WSTOPSIG(status);
        if (signal == (SIGTRAP | 0x80)) {
            struct __ptrace_syscall_info info;
            memset(&info, 0, sizeof info);
            if (ptrace(PTRACE_GET_SYSCALL_INFO, thread, sizeof info, &info) > 0 && info.op == PTRACE_SYSCALL_INFO_ENTRY
                && ++calls == last) {
                kill(program, SIGKILL);
                while (waitpid(-1, &status, __WALL) > 0)
                    ;
                say(calls);
                return 200;
            }
            signal = 0;
        } else if (signal == SIGTRAP || signal == SIGSTOP) {
            signal = 0; /* a thread that begins */
        }
        ptrace(PTRACE_SYSCALL, thread, 0, signal);
    }
}
