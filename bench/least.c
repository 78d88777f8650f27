// The least that a proxy can do with one backend connection a request: the system calls of `serve` on one thread, and no
// look at what it passes on. It asks the backend to close, and takes that line out of the reply.
//
//   least PORT BACKEND_PORT
#define _GNU_SOURCE
#include <arpa/inet.h>
#include <netinet/in.h>
#include <netinet/tcp.h>
#include <stdlib.h>
#include <string.h>
#include <sys/epoll.h>
#include <sys/socket.h>
#include <unistd.h>

enum { ROOM = 32768, LINES = 65536 };
static const char ASK[] = "Connection: close\r\n\r\n", TOLD[] = "Connection: close\r\n";

static int client_of[LINES]; // of a backend's line, and -1 of a client's
static char room[ROOM + sizeof ASK];
static struct sockaddr_in backend;

static struct sockaddr_in loopback(const char *port) {
  struct sockaddr_in at = {.sin_family = AF_INET, .sin_port = htons(atoi(port))};
  at.sin_addr.s_addr = htonl(INADDR_LOOPBACK);
  return at;
}

static void watch(int poll, int line, int client) {
  struct epoll_event event = {.events = EPOLLIN | EPOLLRDHUP | EPOLLET, .data.fd = line};
  client_of[line] = client;
  epoll_ctl(poll, EPOLL_CTL_ADD, line, &event);
}

static void take_clients(int poll, int door) {
  int line, on = 1;
  while ((line = accept4(door, NULL, NULL, SOCK_CLOEXEC | SOCK_NONBLOCK)) >= 0) {
    setsockopt(line, IPPROTO_TCP, TCP_NODELAY, &on, sizeof on);
    watch(poll, line, -1);
  }
}

static void pass_request(int poll, int client) {
  ssize_t got = recv(client, room, ROOM, 0);
  if (got < 2) {
    if (got == 0) close(client);
    return;
  }
  int line = socket(AF_INET, SOCK_STREAM | SOCK_CLOEXEC | SOCK_NONBLOCK, 0);
  connect(line, (struct sockaddr *)&backend, sizeof backend);
  memcpy(room + got - 2, ASK, sizeof ASK - 1);
  send(line, room, got - 2 + sizeof ASK - 1, MSG_NOSIGNAL);
  watch(poll, line, client);
}

static void pass_reply(int line) {
  ssize_t got = recv(line, room, ROOM, 0);
  char *told = got > 0 ? memmem(room, got, TOLD, sizeof TOLD - 1) : NULL;
  if (told != NULL) {
    got -= sizeof TOLD - 1;
    memmove(told, told + sizeof TOLD - 1, room + got - told);
  }
  if (got > 0) send(client_of[line], room, got, MSG_NOSIGNAL);
  close(line);
}

int main(int count, char **words) {
  if (count != 3) return 2;
  struct sockaddr_in at = loopback(words[1]);
  backend = loopback(words[2]);
  int on = 1, door = socket(AF_INET, SOCK_STREAM | SOCK_NONBLOCK, 0), poll = epoll_create1(0);
  setsockopt(door, SOL_SOCKET, SO_REUSEADDR, &on, sizeof on);
  if (bind(door, (struct sockaddr *)&at, sizeof at) != 0 || listen(door, 1024) != 0) return 1;
  watch(poll, door, -1);
  for (;;) {
    static struct epoll_event events[1024];
    int ready = epoll_wait(poll, events, 1024, -1);
    for (int i = 0; i < ready; i++) {
      int line = events[i].data.fd;
      if (line == door) take_clients(poll, door);
      else if (client_of[line] < 0) pass_request(poll, line);
      else pass_reply(line);
    }
  }
}
