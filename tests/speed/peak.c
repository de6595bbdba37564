// Runs a command as a child of this small process and writes the command's peak memory, in kB, to a file.
//
//   peak FILE COMMAND WORD..
//
// A child begins with the memory of its parent, and the system keeps that as its peak, so the parent has to be small.
#include <stdio.h>
#include <stdlib.h>
#include <sys/resource.h>
#include <sys/wait.h>
#include <unistd.h>

int main(int count, char **words) {
    if (count < 3) return 2;
    pid_t child = fork();
    if (child == 0) {
        execvp(words[2], words + 2);
        _exit(127);
    }
    int status;
    struct rusage used;
    if (child < 0 || wait4(child, &status, 0, &used) < 0) return 126;
    FILE *told = fopen(words[1], "w");
    if (!told) return 126;
    fprintf(told, "%ld\n", used.ru_maxrss);
    fclose(told);
    return WIFEXITED(status) ? WEXITSTATUS(status) : 125;
}
