#!/usr/bin/env bash
# The built program takes no memory for requests that are done, also where they go to two balancers by turns:
#
#   tests/memory.sh [requests]
#
# Without a word it makes 50,000 requests; 1,000,000 take some minutes. No backend is needed: each gets 502 behind a draw.
source "$(dirname "$0")/lib/common.sh"
requests=${1:-50000}
needs python3
build

port=$(free_port)
nobody=$(free_port)
cat >"$room/config.toml" <<TOML
[http.routers.a]
rule = "Path(\`/a\`)"
service = "a"
[http.routers.b]
rule = "Path(\`/b\`)"
service = "b"
[[http.services.a.loadBalancer.servers]]
url = "http://127.0.0.1:$nobody"
[[http.services.b.loadBalancer.servers]]
url = "http://127.0.0.1:$nobody"
TOML
start "$port" "$proxy" serve "web=127.0.0.1:$port" --file "$room/config.toml"

# resident: how much memory the program holds, in KiB.
resident() { awk '/^VmRSS:/ { print $2 }' "/proc/$pid/status"; }

# ask COUNT: so many requests, 500 on a connection, for the two balancers by turns; each has to be answered 502.
ask() {
  python3 - "$port" "$1" <<'PY' || fail "a request of $1 wasn't answered with 502"
import socket, sys
port, count = int(sys.argv[1]), int(sys.argv[2])
head = b"GET /%s HTTP/1.1\r\nHost: h\r\n\r\n"
asked = [head % b"a", head % b"b"]
while count > 0:
    with socket.create_connection(("127.0.0.1", port), 10) as link:
        for at in range(min(500, count)):
            link.sendall(asked[at % 2])
            reply = b""
            while not reply.endswith(b"502 bad gateway\n"):
                piece = link.recv(4096)
                if not piece:
                    sys.exit(1)
                reply += piece
            if not reply.startswith(b"HTTP/1.1 502 "):
                sys.exit(1)
    count -= 500
PY
}

ask 1000
before=$(resident)
ask "$requests"
after=$(resident)
echo "memory: $before KiB after 1,000 requests, $after KiB after $requests more"
if [ $((after - before)) -gt 1024 ]; then
  fail "it grew by $((after - before)) KiB"
fi
exit "$status"
