/* Linked between the example network and what it calls (cc -Wl,--wrap=open and so on): ends a club with SIGABRT, which the example takes for a failure,
 * where it makes a step or sends a row while something of its log is not forced: a record of the step before, bytes that were written or were there
 * before, a file's end that was moved, or the directory's entry of a file that may be new.
 */
#define _POSIX_C_SOURCE 200809L

#include <fcntl.h>
#include <stdarg.h>
#include <stdint.h>
#include <stdio.h>
#include <stdlib.h>
#include <sys/socket.h>
#include <sys/stat.h>
#include <unistd.h>

/* Each wrapper stands for the function of its name. */
int __real_open(const char *path, int flags, ...);
int __wrap_open(const char *path, int flags, ...);
ssize_t __real_write(int file, const void *bytes, size_t length);
ssize_t __wrap_write(int file, const void *bytes, size_t length);
int __real_ftruncate(int file, off_t length);
int __wrap_ftruncate(int file, off_t length);
int __real_fsync(int file);
int __wrap_fsync(int file);
ssize_t __real_sendto(int socket, const void *bytes, size_t length, int flags, const struct sockaddr *to, socklen_t to_length);
ssize_t __wrap_sendto(int socket, const void *bytes, size_t length, int flags, const struct sockaddr *to, socklen_t to_length);
uint32_t __real_qc_step(const uint8_t *terms, size_t terms_length, uint8_t *site, size_t site_length, const uint8_t *command, size_t command_length,
                        uint8_t *row, size_t row_length, uint8_t *result, size_t result_length);
uint32_t __wrap_qc_step(const uint8_t *terms, size_t terms_length, uint8_t *site, size_t site_length, const uint8_t *command, size_t command_length,
                        uint8_t *row, size_t row_length, uint8_t *result, size_t result_length);

/* What is not forced yet, of the log and of its directory. */
static int log_open, entry_open;

static void must_be_forced(const char *what)
{
    if (log_open || entry_open) {
        fprintf(stderr, "%s before %s is forced\n", what, log_open ? "the log" : "the directory");
        abort();
    }
}

int __wrap_open(const char *path, int flags, ...)
{
    unsigned mode = 0;
    va_list rest;

    if (flags & O_CREAT) {
        va_start(rest, flags);
        mode = va_arg(rest, unsigned);
        va_end(rest);
        log_open = entry_open = 1;
    }
    return __real_open(path, flags, mode);
}

ssize_t __wrap_write(int file, const void *bytes, size_t length)
{
    log_open = 1;
    return __real_write(file, bytes, length);
}

int __wrap_ftruncate(int file, off_t length)
{
    log_open = 1;
    return __real_ftruncate(file, length);
}

int __wrap_fsync(int file)
{
    struct stat kind;

    if (fstat(file, &kind) == 0 && S_ISDIR(kind.st_mode))
        entry_open = 0;
    else
        log_open = 0;
    return __real_fsync(file);
}

ssize_t __wrap_sendto(int socket, const void *bytes, size_t length, int flags, const struct sockaddr *to, socklen_t to_length)
{
    must_be_forced("a row is sent");
    return __real_sendto(socket, bytes, length, flags, to, to_length);
}

uint32_t __wrap_qc_step(const uint8_t *terms, size_t terms_length, uint8_t *site, size_t site_length, const uint8_t *command, size_t command_length,
                        uint8_t *row, size_t row_length, uint8_t *result, size_t result_length)
{
    uint32_t number;

    must_be_forced("a step is made");
    number = __real_qc_step(terms, terms_length, site, site_length, command, command_length, row, row_length, result, result_length);
    log_open = number == 0 && (result[0] != 0 || result[1] != 0 || result[2] != 0);
    return number;
}
