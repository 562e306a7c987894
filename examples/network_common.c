/* Time, draws and sockets, for the other files of the example network. */
#define _POSIX_C_SOURCE 200809L

#include <stdio.h>
#include <sys/socket.h>
#include <sys/un.h>
#include <time.h>
#include <unistd.h>

#include "network.h"

long milliseconds(void)
{
    struct timespec now;

    clock_gettime(CLOCK_MONOTONIC, &now);
    return (long)now.tv_sec * 1000 + now.tv_nsec / 1000000;
}

unsigned draw(uint64_t *random, unsigned least, unsigned most)
{
    *random = *random * 6364136223846793005u + 1442695040888963407u;
    return least + (unsigned)(*random >> 33) % (most - least + 1);
}

void club_name(char *name, unsigned club, const char *end)
{
    snprintf(name, NAME_BYTES, "club%u%s", club, end);
}

/* Names are relative to the working directory, so they always fit. */
static struct sockaddr_un address(const char *name)
{
    struct sockaddr_un address;

    memset(&address, 0, sizeof address);
    address.sun_family = AF_UNIX;
    snprintf(address.sun_path, sizeof address.sun_path, "%s", name);
    return address;
}

int open_socket(const char *name)
{
    const struct sockaddr_un own = address(name);
    const int opened = socket(AF_UNIX, SOCK_DGRAM, 0);

    if (opened < 0)
        return -1;
    unlink(name); /* that of a club which was killed */
    if (bind(opened, (const struct sockaddr *)&own, sizeof own) != 0) {
        close(opened);
        return -1;
    }
    return opened;
}

void send_to(int socket, const char *name, const uint8_t *row)
{
    const struct sockaddr_un other = address(name);

    /* an error is a row lost, which is allowed */
    (void)sendto(socket, row, QC_ROW_BYTES, MSG_DONTWAIT | MSG_NOSIGNAL, (const struct sockaddr *)&other, sizeof other);
}
