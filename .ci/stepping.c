// Counts the instructions of a program's run from its first breakpoint on, one by one, and says their number on standard error:
// stepping PROGRAM WORD..
//
// The library in PRELOADED, which has the breakpoint, is loaded before all others by the program, and not by this one. What the program
// says on standard error is not wanted. The exit status is the program's, and 127 where there is no breakpoint.
#include <fcntl.h>
#include <stdio.h>
#include <stdlib.h>
#include <sys/ptrace.h>
#include <sys/wait.h>
#include <unistd.h>

static void run(char **words) {
    dup2(open("/dev/null", O_WRONLY), 2);
    if (getenv("PRELOADED")) setenv("LD_PRELOAD", getenv("PRELOADED"), 1);
    ptrace(PTRACE_TRACEME, 0, NULL, NULL);
    execv(words[0], words);
    _exit(127);
}

int main(int count, char **words) {
    unsigned long stops = 0;
    int status;
    pid_t child = count > 1 ? fork() : -1;
    if (child == 0) run(words + 1);
    for (waitpid(child, &status, 0); child > 0 && WIFSTOPPED(status); waitpid(child, &status, 0)) {
        // (the first stop is where the program begins, and the second at the breakpoint)
        stops++;
        if (ptrace(stops == 1 ? PTRACE_CONT : PTRACE_SINGLESTEP, child, NULL, NULL)) return 127;
    }
    fprintf(stderr, "%lu\n", stops);
    return child > 0 && WIFEXITED(status) && stops > 1 ? WEXITSTATUS(status) : 127;
}
