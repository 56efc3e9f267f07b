/* cost COMMAND..: runs it, without its output, and prints the processor time that it took, in microseconds. */
#define _XOPEN_SOURCE 700
#include <fcntl.h>
#include <stdio.h>
#include <sys/resource.h>
#include <sys/time.h>
#include <sys/wait.h>
#include <unistd.h>

static long microseconds(struct timeval t) { return t.tv_sec * 1000000L + t.tv_usec; }

int main(int count, char **words)
{
    struct rusage used;
    int status = 0;
    pid_t child = count > 1 ? fork() : -1;
    if (child == 0) {
        int nowhere = open("/dev/null", O_WRONLY);
        if (nowhere >= 0 && dup2(nowhere, STDOUT_FILENO) >= 0)
            execvp(words[1], words + 1);
        _exit(127);
    }
    if (child < 0 || waitpid(child, &status, 0) != child || status != 0 || getrusage(RUSAGE_CHILDREN, &used) != 0) {
        fprintf(stderr, "cost: the command failed\n");
        return 1;
    }
    printf("%ld\n", microseconds(used.ru_utime) + microseconds(used.ru_stime));
    return 0;
}
