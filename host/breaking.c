/*
 * breaking FILE COMMAND [WORD ...] - runs a command whose standard input gives the bytes of FILE and then fails.
 *
 * A file or a pipe ends; it does not fail. The far end of a pseudo-terminal does: once the near end is closed, what was written there can
 * still be read, and the next read fails with EIO, as a disk that breaks does. All of FILE must fit in the terminal's own buffer, so it
 * has at most MOST bytes. Ends with the status of the command, and with 125 where it could not be started like that.
 */
#define _XOPEN_SOURCE 600
#include <fcntl.h>
#include <stdio.h>
#include <stdlib.h>
#include <termios.h>
#include <unistd.h>

enum { MOST = 3500, CANNOT = 125 };

static int cannot(const char *what)
{
    fprintf(stderr, "breaking: ");
    perror(what);
    return CANNOT;
}

int main(int argc, char **argv)
{
    char bytes[MOST + 1];
    const char *name;
    struct termios plain;
    size_t length;
    FILE *file;
    int near, far;

    if (argc < 3) {
        fprintf(stderr, "usage: breaking FILE COMMAND [WORD ...]\n");
        return CANNOT;
    }
    file = fopen(argv[1], "rb");
    if (file == NULL)
        return cannot(argv[1]);
    length = fread(bytes, 1, sizeof bytes, file);
    if (length > MOST || ferror(file)) {
        fprintf(stderr, "breaking: cannot read %s, or it has more than %d bytes\n", argv[1], MOST);
        return CANNOT;
    }
    fclose(file);

    far = posix_openpt(O_RDWR | O_NOCTTY);
    if (far < 0 || grantpt(far) != 0 || unlockpt(far) != 0 || (name = ptsname(far)) == NULL)
        return cannot("a pseudo-terminal");
    near = open(name, O_RDWR | O_NOCTTY);
    if (near < 0 || tcgetattr(near, &plain) != 0)
        return cannot(name);
    /* No byte is to be changed on its way: a terminal makes two of a line end. */
    plain.c_oflag &= ~(tcflag_t)OPOST;
    if (tcsetattr(near, TCSANOW, &plain) != 0 || write(near, bytes, length) != (ssize_t)length || close(near) != 0)
        return cannot(name);
    if (dup2(far, STDIN_FILENO) < 0 || (far != STDIN_FILENO && close(far) != 0))
        return cannot("standard input");
    execvp(argv[2], argv + 2);
    return cannot(argv[2]);
}
