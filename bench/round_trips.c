/* Times round trips through two pipes: a request of nine bytes, and a reply of nine, one after the other. Nothing is proved.
 *
 *     round_trips COUNT COMMAND [WORD ..]
 *
 * The request is a Poll of a slot that isn't open, whose reply is as long as the request, so that a command that echoes
 * its input, as cat does, can stand beside the server. Prints the microseconds of a round trip. */
#include <stdio.h>
#include <stdlib.h>
#include <sys/wait.h>
#include <time.h>
#include <unistd.h>

enum { LENGTH = 9 };

static const unsigned char request[LENGTH] = {0, 0, 0, 5, 0x17, 0, 0, 0, 1};

static void fail(const char *what)
{
    perror(what);
    exit(1);
}

/* Starts the command with a pipe on either side; pipes[0] is read from, pipes[1] written to. */
static pid_t start(char **command, int pipes[2])
{
    int to[2], from[2];
    if (pipe(to) < 0 || pipe(from) < 0)
        fail("pipe");
    pid_t child = fork();
    if (child < 0)
        fail("fork");
    if (child == 0) {
        dup2(to[0], 0);
        dup2(from[1], 1);
        close(to[0]), close(to[1]), close(from[0]), close(from[1]);
        execvp(command[0], command);
        fail(command[0]);
    }
    close(to[0]), close(from[1]);
    pipes[0] = from[0];
    pipes[1] = to[1];
    return child;
}

static void round_trip(const int pipes[2])
{
    unsigned char reply[LENGTH];
    if (write(pipes[1], request, LENGTH) != LENGTH)
        fail("write");
    for (size_t have = 0; have < LENGTH;) {
        ssize_t more = read(pipes[0], reply + have, LENGTH - have);
        if (more <= 0)
            fail("read");
        have += (size_t)more;
    }
}

static double seconds(void)
{
    struct timespec now;
    clock_gettime(CLOCK_MONOTONIC, &now);
    return (double)now.tv_sec + 1e-9 * (double)now.tv_nsec;
}

int main(int count, char **words)
{
    int pipes[2], status;
    if (count < 3)
        return 2;
    long trips = strtol(words[1], NULL, 10);
    pid_t child = start(words + 2, pipes);
    for (long trip = 0; trip < trips / 10; trip++)
        round_trip(pipes);
    double begun = seconds();
    for (long trip = 0; trip < trips; trip++)
        round_trip(pipes);
    printf("%.3f\n", 1e6 * (seconds() - begun) / (double)trips);
    close(pipes[1]);
    if (waitpid(child, &status, 0) < 0)
        fail("waitpid");
    return status != 0;
}
