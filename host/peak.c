/*
 * peak FILE COMMAND [WORD ...] - runs a command and writes to FILE the most memory that one process of it ever held, in kilobytes.
 *
 * That is the largest resident set among the command and all that it started and waited for. Ends with the status of the command, and with
 * 125 where that could not be had.
 */
#define _XOPEN_SOURCE 600
#include <stdio.h>
#include <sys/resource.h>
#include <sys/wait.h>
#include <unistd.h>

enum { CANNOT = 125 };

static int cannot(const char *what)
{
    fprintf(stderr, "peak: ");
    perror(what);
    return CANNOT;
}

int main(int argc, char **argv)
{
    struct rusage used;
    FILE *file;
    pid_t child;
    int status;

    if (argc < 3) {
        fprintf(stderr, "usage: peak FILE COMMAND [WORD ...]\n");
        return CANNOT;
    }
    child = fork();
    if (child < 0)
        return cannot("a process");
    if (child == 0) {
        execvp(argv[2], argv + 2);
        _exit(cannot(argv[2]));
    }
    if (waitpid(child, &status, 0) != child || getrusage(RUSAGE_CHILDREN, &used) != 0)
        return cannot(argv[2]);
    file = fopen(argv[1], "w");
    if (file == NULL || fprintf(file, "%ld\n", used.ru_maxrss) < 0 || fclose(file) != 0)
        return cannot(argv[1]);
    return WIFEXITED(status) ? WEXITSTATUS(status) : CANNOT;
}
