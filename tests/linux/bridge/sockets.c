/* SPDX-License-Identifier: MIT OR Apache-2.0 */
#include "bridge.h"
#include <poll.h>
#include <stdlib.h>
#include <string.h>
#include <sys/socket.h>
#include <sys/un.h>
#include <time.h>
#include <unistd.h>
#include <errno.h>

int guest_gone;

static int redir_listening = -1, redir = -1, words_listening = -1, words = -1;

int guest_there(void)
{
    return redir >= 0;
}

static int listening_on(const char *variable)
{
    struct sockaddr_un at = {.sun_family = AF_UNIX};
    const char *name = getenv(variable);
    int s = socket(AF_UNIX, SOCK_STREAM, 0);

    if (name == NULL || strlen(name) >= sizeof at.sun_path) {
        fprintf(stderr, "bridge: %s must be a path of less than %zu bytes\n", variable, sizeof at.sun_path);
        exit(2);
    }
    unlink(name);
    strcpy(at.sun_path, name);
    if (bind(s, (struct sockaddr *)&at, sizeof at) < 0 || listen(s, 1) < 0) {
        perror(name);
        exit(2);
    }
    return s;
}

void sockets_open(void)
{
    redir_listening = listening_on("REDIR_SOCKET");
    words_listening = listening_on("WORDS_SOCKET");
}

/* ---- usbredir's functions */

static int read_some(void *p, uint8_t *to, int count)
{
    ssize_t n = recv(redir, to, (size_t)count, MSG_DONTWAIT);

    (void)p;
    if (n > 0)
        return (int)n;
    if (n < 0 && (errno == EAGAIN || errno == EINTR))
        return 0;
    guest_gone = 1;
    return -1;
}

static int write_some(void *p, uint8_t *from, int count)
{
    ssize_t n = send(redir, from, (size_t)count, MSG_NOSIGNAL | MSG_DONTWAIT);

    (void)p;
    if (n < 0)
        return errno == EAGAIN || errno == EINTR ? 0 : -1;
    return (int)n;
}

/* ---- the guest's words, one a line */

static void heard(const char *line)
{
    fprintf(bridge_log, "guest: %s\n", line);
    if (strcmp(line, "suspend") == 0)
        suspend_asked = 1;
    else if (strcmp(line, "unplug") == 0)
        unplug();
    else if (strcmp(line, "plug") == 0)
        attach();
}

static void read_words(void)
{
    static char line[512];
    static unsigned used;
    char c;

    while (recv(words, &c, 1, MSG_DONTWAIT) == 1) {
        if (c == '\n') {
            line[used] = 0;
            used = 0;
            heard(line);
        } else if (c != '\r' && used < sizeof line - 1) {
            line[used++] = c;
        }
    }
}

static void accept_redir(void)
{
    redir = accept(redir_listening, NULL, NULL);
    redir_open();
    parser->read_func = read_some;
    parser->write_func = write_some;
}

void sockets_serve(int microseconds)
{
    struct timespec t = {microseconds / 1000000, microseconds % 1000000 * 1000L};
    struct pollfd fds[2] = {{redir < 0 ? redir_listening : redir, POLLIN, 0},
                            {words < 0 ? words_listening : words, POLLIN, 0}};

    if (redir >= 0 && usbredirparser_has_data_to_write(parser))
        fds[0].events |= POLLOUT;
    if (ppoll(fds, 2, &t, NULL) > 0) {
        if (fds[0].revents != 0 && redir < 0)
            accept_redir();
        else if (fds[0].revents & (POLLIN | POLLHUP))
            usbredirparser_do_read(parser);
        if (fds[1].revents != 0 && words < 0)
            words = accept(words_listening, NULL, NULL);
        else if (fds[1].revents != 0)
            read_words();
    }
    if (redir >= 0 && usbredirparser_has_data_to_write(parser))
        usbredirparser_do_write(parser);
}
