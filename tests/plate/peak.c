/* Runs a program and writes its largest resident memory, in KiB, to a file: peak REPORT PROGRAM [ARGUMENT]..
   Small itself: what stands in memory before the program is loaded counts too. The exit status is the program's. */
#define _DEFAULT_SOURCE /* wait4 */
#include <stdio.h>
#include <sys/resource.h>
#include <sys/wait.h>
#include <unistd.h>

int main(int argc, char **argv) {
    struct rusage usage;
    int status;
    if (argc < 3)
        return 125;
    pid_t child = fork();
    if (child == 0) {
        execv(argv[2], argv + 2);
        _exit(126);
    }
    if (child < 0 || wait4(child, &status, 0, &usage) != child)
        return 125;
    FILE *report = fopen(argv[1], "w");
    if (!report || fprintf(report, "%ld\n", usage.ru_maxrss) < 0 || fclose(report))
        return 125;
    return WIFEXITED(status) ? WEXITSTATUS(status) : 124;
}
