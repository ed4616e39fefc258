/* Answers each command of any client by `+OK`, and does nothing else: how quick a server can be where the kernel and the
 * client take their time. bench/serve_redis --way floor runs it. Usage: floor PORT */
#include <netinet/in.h>
#include <netinet/tcp.h>
#include <stdio.h>
#include <stdlib.h>
#include <string.h>
#include <sys/epoll.h>
#include <sys/socket.h>
#include <unistd.h>

enum { ROOM = 1 << 16, EVENTS = 64 };
static const char REPLY[] = "+OK\r\n";

/* Writes a reply for each line that begins a command, and returns their bytes. */
static size_t answered(const char *in, size_t length, char *out) {
  const char *end = in + length;
  size_t written = 0;
  while (in && in < end) {
    if (*in == '*') {
      memcpy(out + written, REPLY, sizeof REPLY - 1);
      written += sizeof REPLY - 1;
    }
    const char *line_feed = memchr(in, '\n', (size_t)(end - in));
    in = line_feed ? line_feed + 1 : NULL;
  }
  return written;
}

static int listening(uint16_t port) {
  struct sockaddr_in address = {.sin_family = AF_INET, .sin_port = htons(port)};
  address.sin_addr.s_addr = htonl(INADDR_LOOPBACK);
  int one = 1, listener = socket(AF_INET, SOCK_STREAM, 0);
  setsockopt(listener, SOL_SOCKET, SO_REUSEADDR, &one, sizeof one);
  if (bind(listener, (struct sockaddr *)&address, sizeof address) || listen(listener, EVENTS)) {
    perror("floor");
    exit(1);
  }
  return listener;
}

static void watch(int poll, int socket) {
  struct epoll_event event = {.events = EPOLLIN, .data.fd = socket};
  epoll_ctl(poll, EPOLL_CTL_ADD, socket, &event);
}

static void take_client(int poll, int listener) {
  int one = 1, client = accept(listener, NULL, NULL);
  setsockopt(client, IPPROTO_TCP, TCP_NODELAY, &one, sizeof one);
  watch(poll, client);
}

static void answer(int client) {
  static char in[ROOM], out[ROOM * sizeof REPLY];
  ssize_t length = read(client, in, sizeof in);
  size_t written = length > 0 ? answered(in, (size_t)length, out) : 0;
  if (length <= 0 || write(client, out, written) < 0)
    close(client);
}

int main(int count, char **words) {
  int listener = listening((uint16_t)(count > 1 ? atoi(words[1]) : 0)), poll = epoll_create1(0);
  watch(poll, listener);
  for (;;) {
    struct epoll_event events[EVENTS];
    int ready = epoll_wait(poll, events, EVENTS, -1);
    for (int at = 0; at < ready; at++)
      events[at].data.fd == listener ? take_client(poll, listener) : answer(events[at].data.fd);
  }
}
