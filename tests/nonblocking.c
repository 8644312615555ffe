/* Runs a program whose standard input and output do not block: nonblocking PROGRAM [ARGUMENT..] */
#define _POSIX_C_SOURCE 200809L
#include <fcntl.h>
#include <unistd.h>

int main(int argc, char **argv)
{
    for (int fd = 0; fd < 2; fd++)
        if (fcntl(fd, F_SETFL, fcntl(fd, F_GETFL) | O_NONBLOCK) < 0)
            return 126;
    if (argc > 1)
        execv(argv[1], argv + 1);
    return 127;
}
