/*
 * steps: holds a program at one of its system calls, before the call is made, and then kills it or lets it go on.
 *
 *     steps NUMBER kill|go COMMAND PROGRAM ARGUMENT..
 *
 * NUMBER counts from 1, for the first call after the program was started. While the program is held, the shell runs
 * COMMAND. Exit status: that of the program; 137 if it was killed; 64 if it ended before so many calls; 65 if it
 * cannot be held.
 */
#define _GNU_SOURCE

#include <signal.h>
#include <stdio.h>
#include <stdlib.h>
#include <string.h>
#include <sys/ptrace.h>
#include <sys/wait.h>
#include <unistd.h>

enum { EARLY = 64, UNABLE = 65, KILLED = 137 };

static int cannot(const char *what)
{
    perror(what);
    return UNABLE;
}

static int child(char **program)
{
    if (ptrace(PTRACE_TRACEME, 0, NULL, NULL) != 0)
        return cannot("ptrace");
    raise(SIGSTOP);
    execv(program[0], program);
    return cannot(program[0]);
}

static int ended(int status)
{
    return WIFEXITED(status) || WIFSIGNALED(status);
}

/* Goes on to the next stop at a system call, which is a call's start and its end by turns; 0, or -1 if it ended. */
static int next_stop(pid_t pid, int *status)
{
    int signal = 0;
    for (;;) {
        if (ptrace(PTRACE_SYSCALL, pid, NULL, (void *)(long)signal) != 0 || waitpid(pid, status, 0) != pid)
            return -1;
        if (ended(*status))
            return -1;
        if (WSTOPSIG(*status) == (SIGTRAP | 0x80))
            return 0;
        signal = WSTOPSIG(*status) == SIGTRAP ? 0 : WSTOPSIG(*status);
    }
}

/* Goes on until the program itself has started: its execve has ended. */
static int start(pid_t pid, int *status)
{
    if (waitpid(pid, status, 0) != pid || !WIFSTOPPED(*status))
        return -1;
    long options = PTRACE_O_TRACESYSGOOD | PTRACE_O_TRACEEXEC | PTRACE_O_EXITKILL;
    if (ptrace(PTRACE_SETOPTIONS, pid, NULL, (void *)options) != 0)
        return -1;
    do {
        if (ptrace(PTRACE_CONT, pid, NULL, NULL) != 0 || waitpid(pid, status, 0) != pid || ended(*status))
            return -1;
    } while (*status >> 8 != (SIGTRAP | PTRACE_EVENT_EXEC << 8));
    return next_stop(pid, status);
}

static int held(pid_t pid, int kill_it, const char *command)
{
    int status;
    if (system(command) != 0)
        fprintf(stderr, "steps: the command failed\n");
    if (kill_it)
        kill(pid, SIGKILL);
    else
        ptrace(PTRACE_DETACH, pid, NULL, NULL);
    if (waitpid(pid, &status, 0) != pid || !ended(status))
        return cannot("waitpid");
    return WIFEXITED(status) ? WEXITSTATUS(status) : 128 + WTERMSIG(status);
}

int main(int argc, char **argv)
{
    int status;
    if (argc < 5)
        return cannot("usage");
    pid_t pid = fork();
    if (pid < 0)
        return cannot("fork");
    if (pid == 0)
        _exit(child(argv + 4));
    if (start(pid, &status) != 0)
        return cannot("start");
    for (int stops = 2 * atoi(argv[1]) - 1; stops > 0; stops--)
        if (next_stop(pid, &status) != 0)
            return EARLY;
    return held(pid, strcmp(argv[2], "kill") == 0, argv[3]);
}
