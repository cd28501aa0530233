/* Runs a command, and prints the largest resident size that it had, in bytes: peak COMMAND [WORD..]
 *
 * A process starts with the size of the one that it is forked from, so it has to be forked from a small one.
 */
#include <fcntl.h>
#include <stdio.h>
#include <sys/resource.h>
#include <sys/wait.h>
#include <unistd.h>

int main(int argc, char **argv)
{
    int status;
    struct rusage used;
    if (argc < 2)
        return 2;
    pid_t child = fork();
    if (child == 0) {
        dup2(open("/dev/null", O_WRONLY), 1);
        execvp(argv[1], argv + 1);
        _exit(127);
    }
    if (child < 0 || wait4(child, &status, 0, &used) != child || status)
        return 1;
    printf("%ld\n", used.ru_maxrss * 1024);
    return 0;
}
