#!/usr/bin/env bash
# The built program serves many links: 1,000 requests over kept connections, 256 links at once while the next waits, and
# one that sends garbage while the others notice nothing.
source "$(dirname "$0")/lib/common.sh"
needs python3
build
python3 - "$proxy" "$(free_port)" <<'PYTHON'
import os, socket, subprocess, sys, tempfile, threading, time

proxy, port = sys.argv[1], int(sys.argv[2])
LINKS = 256
REPLY = b"HTTP/1.1 200 OK\r\nContent-Length: 5\r\n\r\nhello"
REQUEST = b"GET /page HTTP/1.1\r\nHost: a.test\r\n\r\n"


def backend(listener):
    """Answers each link's one request."""
    while True:
        try:
            link, _ = listener.accept()
        except OSError:
            return
        got = b""
        while b"\r\n\r\n" not in got:
            piece = link.recv(65536)
            if not piece:
                break
            got += piece
        link.sendall(REPLY)
        link.close()


def reply_on(link, seconds):
    """The next reply, or what came of it within the time."""
    link.settimeout(seconds)
    got = b""
    try:
        while not got.endswith(b"hello"):
            piece = link.recv(65536)
            if not piece:
                break
            got += piece
    except socket.timeout:
        pass
    return got


def ask(link):
    link.sendall(REQUEST)
    got = reply_on(link, 10)
    if not got.startswith(b"HTTP/1.1 200 OK\r\n") or not got.endswith(b"hello"):
        sys.exit(f"links: a request got {got!r}")


def connect():
    for _ in range(100):
        try:
            return socket.create_connection(("127.0.0.1", port), 10)
        except ConnectionRefusedError:
            time.sleep(0.1)
    sys.exit("links: nothing listens")


listener = socket.create_server(("127.0.0.1", 0), backlog=512)
threading.Thread(target=backend, args=(listener,), daemon=True).start()
with tempfile.TemporaryDirectory() as room:
    config = os.path.join(room, "config.toml")
    with open(config, "w") as file:
        file.write('[http.routers.page]\nrule = "Path(`/page`)"\nservice = "pages"\n')
        file.write(f'[[http.services.pages.loadBalancer.servers]]\nurl = "http://127.0.0.1:{listener.getsockname()[1]}"\n')
    served = subprocess.Popen(
        [proxy, "serve", f"web=127.0.0.1:{port}", "--file", config],
        stdout=subprocess.DEVNULL,
    )
    try:
        # 1,000 requests over four kept connections.
        for _ in range(4):
            with connect() as link:
                for _ in range(250):
                    ask(link)

        # As many links as are served at once, each of which got a reply and stays.
        links = [connect() for _ in range(LINKS)]
        for link in links:
            ask(link)
        late = connect()
        late.sendall(REQUEST)
        if reply_on(late, 0.5):
            sys.exit("links: one link more than may be was served")

        # Garbage gets its answer, and its end makes room for the one that waits. The others notice nothing.
        bad = links.pop()
        bad.sendall(b"garbage\r\n\r\n")
        bad.settimeout(10)
        if not bad.recv(65536).startswith(b"HTTP/1.1 400 Bad Request\r\n"):
            sys.exit("links: garbage got no 400")
        bad.close()
        if not reply_on(late, 10).endswith(b"hello"):
            sys.exit("links: the link that waited wasn't served")
        for link in links:
            ask(link)
        if served.poll() is not None:
            sys.exit("links: the program ended")
    finally:
        served.kill()
        served.wait()
PYTHON
