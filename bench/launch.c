/* Runs a program from a small process: launch DESCRIPTOR PROGRAM WORD.. The descriptor gets the program's process id, and behind its end the
   KiB of memory that it had at most. A process has in that figure what the process had that it was made from, so a large one may not make it. */
#include <fcntl.h>
#include <stdio.h>
#include <stdlib.h>
#include <sys/resource.h>
#include <sys/wait.h>
#include <unistd.h>

int main(int count, char **words)
{
    struct rusage used;
    int told, status;
    pid_t child;
    if (count < 3)
        return 2;
    told = atoi(words[1]);
    if (fcntl(told, F_SETFD, FD_CLOEXEC) != 0 || (child = fork()) < 0)
        return 126;
    if (child == 0) {
        execvp(words[2], words + 2);
        _exit(127);
    }
    dprintf(told, "%ld\n", (long)child);
    if (wait4(child, &status, 0, &used) != child)
        return 126;
    dprintf(told, "%ld\n", used.ru_maxrss);
    return WIFEXITED(status) ? WEXITSTATUS(status) : 125;
}
