/* Where the server listens: at an address of IPv4 or IPv6, and at a socket of the file system. */
#define _GNU_SOURCE
#include "options.h"
#include <arpa/inet.h>
#include <errno.h>
#include <netinet/in.h>
#include <stdio.h>
#include <string.h>
#include <sys/socket.h>
#include <sys/stat.h>
#include <sys/un.h>
#include <unistd.h>

enum { BACKLOG = 511 };

union place {
    struct sockaddr any;
    struct sockaddr_in four;
    struct sockaddr_in6 six;
};

/* Reads an address. Returns its length, or 0 where it is none. */
static socklen_t place_of(const char *text, uint64_t port, union place *place) {
    *place = (union place){0};
    if (inet_pton(AF_INET, text, &place->four.sin_addr) == 1) {
        place->four.sin_family = AF_INET;
        place->four.sin_port = htons((uint16_t)port);
        return sizeof place->four;
    }
    if (inet_pton(AF_INET6, text, &place->six.sin6_addr) != 1) return 0;
    place->six.sin6_family = AF_INET6;
    place->six.sin6_port = htons((uint16_t)port);
    return sizeof place->six;
}

/* Listens. The port is the one that was taken then. Returns the socket, or -1, and says why. */
int listen_on(struct options *options) {
    union place place;
    socklen_t len = place_of(options->address, options->port, &place);
    int on = 1, file;
    if (len == 0) {
        errno = EINVAL;
        failed(options->address);
        return -1;
    }
    file = socket(place.any.sa_family, SOCK_STREAM | SOCK_NONBLOCK | SOCK_CLOEXEC, 0);
    if (file < 0 || setsockopt(file, SOL_SOCKET, SO_REUSEADDR, &on, sizeof on) != 0 || bind(file, &place.any, len) != 0
        || listen(file, BACKLOG) != 0 || getsockname(file, &place.any, &len) != 0) {
        failed("cannot listen");
        if (file >= 0) close(file);
        return -1;
    }
    options->port = ntohs(place.any.sa_family == AF_INET ? place.four.sin_port : place.six.sin6_port);
    return file;
}

/* Takes a socket away that a server left which is gone: nobody listens at it. */
static void take_away_old(const struct sockaddr_un *address) {
    struct stat is;
    int file = socket(AF_UNIX, SOCK_STREAM | SOCK_CLOEXEC, 0);
    bool is_old =
        file >= 0 && connect(file, (const struct sockaddr *)address, sizeof *address) != 0 && errno == ECONNREFUSED;
    if (file >= 0) close(file);
    if (is_old && stat(address->sun_path, &is) == 0 && S_ISSOCK(is.st_mode)) unlink(address->sun_path);
}

/* Listens at the socket of the file system. Returns it; -1 where none is asked for, and -2, and says why, where it cannot.
 */
int listen_locally(const struct options *options) {
    struct sockaddr_un address = {.sun_family = AF_UNIX};
    int file;
    if (options->unixsocket == NULL) return -1;
    if (strlen(options->unixsocket) >= sizeof address.sun_path) {
        errno = ENAMETOOLONG;
        failed(options->unixsocket);
        return -2;
    }
    strcpy(address.sun_path, options->unixsocket);
    take_away_old(&address);
    file = socket(AF_UNIX, SOCK_STREAM | SOCK_NONBLOCK | SOCK_CLOEXEC, 0);
    if (file >= 0 && bind(file, (struct sockaddr *)&address, sizeof address) == 0 && listen(file, BACKLOG) == 0) return file;
    failed(options->unixsocket);
    if (file >= 0) close(file);
    return -2;
}

/* Without a password, clients of other machines are taken only where that is meant. Returns whether the server may start. */
bool is_safe(const struct options *options) {
    union place place;
    socklen_t len = place_of(options->address, 0, &place);
    bool is_local = len == sizeof place.four ? (ntohl(place.four.sin_addr.s_addr) >> 24) == 127
                                             : len > 0 && IN6_IS_ADDR_LOOPBACK(&place.six.sin6_addr);
    if (is_local || options->limits.password.len > 0 || len == 0) return true;
    fprintf(stderr, "cache: %s without --password: who reaches it may read and write everything%s\n", options->address,
            options->is_open ? "" : "; --open says that this is meant");
    return options->is_open;
}
