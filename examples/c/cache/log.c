/* The log: a line on standard output, with the time. And what systemd is told. */
#define _GNU_SOURCE
#include "cache.h"
#include <poll.h>
#include <stddef.h>
#include <stdarg.h>
#include <stdio.h>
#include <stdlib.h>
#include <string.h>
#include <sys/socket.h>
#include <sys/un.h>
#include <time.h>
#include <unistd.h>

enum { LINE = 1024 };

/* Writes a line. One that nobody takes in time is left out: the server does not wait for its log. */
void log_line(const char *format, ...) {
    char line[LINE];
    struct pollfd out = {.fd = STDOUT_FILENO, .events = POLLOUT};
    struct timespec now;
    struct tm day;
    size_t len;
    va_list more;
    clock_gettime(CLOCK_REALTIME, &now);
    gmtime_r(&now.tv_sec, &day);
    len = strftime(line, LINE, "%Y-%m-%dT%H:%M:%S", &day);
    len += (size_t)snprintf(line + len, LINE - len, ".%03ldZ cache: ", now.tv_nsec / 1000000);
    va_start(more, format);
    vsnprintf(line + len, LINE - len - 1, format, more);
    va_end(more);
    if (poll(&out, 1, 0) == 1 && (out.revents & POLLOUT)) dprintf(STDOUT_FILENO, "%s\n", line);
}

/* Tells systemd a state such as `READY=1`, where it asked for that. */
void notify_system(const char *state) {
    struct sockaddr_un address = {.sun_family = AF_UNIX};
    const char *path = getenv("NOTIFY_SOCKET");
    size_t len = path == NULL ? 0 : strlen(path);
    int file;
    if (len == 0 || len >= sizeof address.sun_path) return;
    memcpy(address.sun_path, path, len);
    if (address.sun_path[0] == '@') address.sun_path[0] = 0;
    file = socket(AF_UNIX, SOCK_DGRAM | SOCK_CLOEXEC, 0);
    if (file < 0) return;
    (void)!sendto(file, state, strlen(state), MSG_NOSIGNAL, (struct sockaddr *)&address,
                  (socklen_t)(offsetof(struct sockaddr_un, sun_path) + len));
    close(file);
}
