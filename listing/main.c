/*
 * The listing program around its proved part, crates/listing: arguments,
 * files, failures and the exit status, which the language has no words for.
 *
 * The proved part is linked as it was compiled, under other names: its main is
 * proved_listing, and the read and write that it calls are the two functions
 * below. They keep the C library's promise: a count within the buffer, or -1.
 * After a failure nothing more is read or written, so that the proved part
 * comes to its end; what it would say of the failure itself is not written
 * either.
 */
#define _POSIX_C_SOURCE 200809L
#include <cbqri.h>

#include <errno.h>
#include <fcntl.h>
#include <poll.h>
#include <stdio.h>
#include <string.h>
#include <unistd.h>

enum { FAILED = 1, REFUSED = 2 }; /* exit statuses */

int proved_listing(void);
ssize_t listing_read(int fd, void *buffer, size_t length);
ssize_t listing_write(int fd, const void *buffer, size_t length);

static int status;
static const char *input = "standard input";

static ssize_t failed(const char *doing, const char *what)
{
    fprintf(stderr, "listing: %s %s: %s\n", doing, what, strerror(errno));
    status = FAILED;
    return -1;
}

/* Whether a call that failed may be tried again, after waiting where it would have blocked. */
static int again(int fd, short ready)
{
    struct pollfd wanted = {.fd = fd, .events = ready};
    if (errno == EAGAIN || errno == EWOULDBLOCK)
        return poll(&wanted, 1, -1) >= 0 || errno == EINTR;
    return errno == EINTR;
}

ssize_t listing_read(int fd, void *buffer, size_t length)
{
    while (!status) {
        ssize_t got = read(fd, buffer, length);
        if (got >= 0)
            return got;
        if (!again(fd, POLLIN))
            return failed("reading", input);
    }
    return 0;
}

ssize_t listing_write(int fd, const void *buffer, size_t length)
{
    const char *bytes = buffer;
    size_t done = 0;
    while (!status && done < length) {
        ssize_t wrote = write(fd, bytes + done, length - done);
        if (wrote > 0)
            done += (size_t)wrote;
        else if (wrote == 0 || !again(fd, POLLOUT))
            return failed("writing", "standard output");
    }
    return status ? -1 : (ssize_t)done;
}

static int refuse(const char *why, const char *argument)
{
    fprintf(stderr, "listing: %s '%s'; see listing --help\n", why, argument);
    return REFUSED;
}

static void say(const char *text)
{
    listing_write(STDOUT_FILENO, text, strlen(text));
}

static const char help[] =
    "usage: listing [FILE]\n"
    "Answers each line of FILE, or of standard input, by a bandwidth controller:\n"
    "  s NBWBLKS MRBWB NR NA NM Q W     resets it with this set-up\n"
    "  w SIZE OFFSET VALUE              writes a register; OFFSET and VALUE in hexadecimal\n"
    "  r SIZE OFFSET                    reads one\n"
    "  q RCID MCID AT KIND BYTES        requests bytes; KIND 0 reads, 1 writes\n"
    "  e                                ends the window\n"
    "An answer is ok, 16 hexadecimal digits (r), the bytes of the reservation and\n"
    "those of the pool (q), no N for refusal N, or bad for a line of another form or\n"
    "before an accepted s.\n"
    "  --help       this text\n"
    "  --version    the version\n"
    "Exit status: 0, 1 if reading or writing failed, 2 if the arguments are refused.\n";

/* Makes a file the standard input. */
static void take_input(const char *file)
{
    int fd = open(file, O_RDONLY | O_NOCTTY);
    input = file;
    if (fd < 0 || (fd != STDIN_FILENO && dup2(fd, STDIN_FILENO) < 0))
        failed("opening", file);
    else if (fd != STDIN_FILENO)
        close(fd);
}

int main(int argc, char **argv)
{
    const char *argument = argc > 1 ? argv[1] : NULL;
    if (argc > 2)
        return refuse("one argument at most, not also", argv[2]);
    if (argument && strcmp(argument, "--help") == 0) {
        say(help);
    } else if (argument && strcmp(argument, "--version") == 0) {
        say("listing " CBQRI_VERSION_STRING "\n");
    } else if (argument && argument[0] == '-') {
        return refuse("unknown option", argument);
    } else {
        if (argument)
            take_input(argument);
        proved_listing();
    }
    if (!status && close(STDOUT_FILENO) != 0 && errno != EBADF && errno != EINTR)
        failed("writing", "standard output");
    return status;
}
