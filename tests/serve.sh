#!/usr/bin/env bash
# The built program serves: a server's reply comes through, and each refusal as it is written in the README.
source "$(dirname "$0")/lib/common.sh"
needs curl python3
build

# expect STATUS TEXT PATH: what a request for this path gets.
expect() {
  local got
  got=$(curl -s --max-time 10 -w '%{http_code}' "http://127.0.0.1:$port$3" || true)
  if [ "$got" != "$2$1" ]; then
    fail "$3 got '$got', and '$2$1' is wanted"
  fi
}

# ends STATUS WORD..: the status that the program ends with at these words.
ends() {
  local wanted=$1 got=0
  shift
  "$proxy" "$@" >/dev/null 2>&1 || got=$?
  if [ "$got" != "$wanted" ]; then
    fail "'$*' ended with $got, and $wanted is wanted"
  fi
}

backend_port=$(free_port)
port=$(free_port)
mkdir "$room/www"
printf 'hello from behind\n' >"$room/www/page"
bytes 300000 x >"$room/www/large"
start "$backend_port" python3 -m http.server "$backend_port" --bind 127.0.0.1 --directory "$room/www"
cat >"$room/config.toml" <<TOML
[http.routers.page]
rule = "Path(\`/page\`) || Path(\`/large\`)"
service = "pages"
[[http.services.pages.loadBalancer.servers]]
url = "http://127.0.0.1:$backend_port"
TOML

# It serves the configuration, and ends after so many requests.
start "$port" "$proxy" serve "web=127.0.0.1:$port" --file "$room/config.toml" --requests 7 --access "$room/access"
expect 200 'hello from behind
' /page
expect 404 '404 page not found
' /none
if ! curl -s --max-time 20 "http://127.0.0.1:$port/large" | cmp -s - "$room/www/large"; then
  fail 'a large body came changed'
fi
# Two requests on one connection.
got=$(curl -s --max-time 10 "http://127.0.0.1:$port/page" "http://127.0.0.1:$port/page" || true)
if [ "$got" != 'hello from behind
hello from behind' ]; then
  fail "two requests got '$got'"
fi
got=$(printf 'garbage\r\n\r\n' | timeout 10 bash -c "exec 3<>/dev/tcp/127.0.0.1/$port; cat >&3; head -n 1 <&3" | tr -d '\r')
if [ "$got" != 'HTTP/1.1 400 Bad Request' ]; then
  fail "garbage got '$got'"
fi
expect 200 'hello from behind
' /page
last=0
ended "$pid" || last=$?
if [ "$last" != 0 ]; then
  fail "it ended with $last after its requests"
fi
cat >"$room/wanted" <<TEXT
generation 1
router 0 page@file priority 31 enabled
service pages@file balancer node 0
server 0 0 127.0.0.1:$backend_port weight 1
end
TEXT
if ! cmp -s "$room/$port.log" "$room/wanted"; then
  fail "it wrote '$(cat "$room/$port.log")'"
fi
if [ "$(grep -c ' status 200 Passed ' "$room/access.0")" != 5 ]; then
  fail "the notes are '$(cat "$room/access.0")'"
fi

# The peer is the address that the client comes from, and the entry point is that of the listener that it came to.
port=$(free_port)
other=$(free_port)
cat >"$room/peers.toml" <<TOML
[http.routers.inside]
rule = "ClientIP(\`127.0.0.2\`)"
entryPoints = ["web"]
service = "pages"
[http.routers.side]
rule = "Path(\`/page\`)"
entryPoints = ["side"]
service = "pages"
[[http.services.pages.loadBalancer.servers]]
url = "http://127.0.0.1:$backend_port"
TOML
start "$port" "$proxy" serve "web=127.0.0.1:$port" "side=127.0.0.1:$other" --file "$room/peers.toml" --requests 3 --access "$room/peers"
expect 404 '404 page not found
' /page
got=$(curl -s --max-time 10 --interface 127.0.0.2 -w '%{http_code}' "http://127.0.0.1:$port/page" || true)
if [ "$got" != 'hello from behind
200' ]; then
  fail "the client at 127.0.0.2 got '$got'"
fi
port=$other
expect 200 'hello from behind
' /page
last=0
ended "$pid" || last=$?
if [ "$last" != 0 ]; then
  fail "it ended with $last after three requests"
fi
# Three requests were noted, and no more: the stop came with the third.
if [ "$(grep -c ' gen 1 ' "$room/peers.0")" != 3 ]; then
  fail "the notes are '$(cat "$room/peers.0")'"
fi

# A note that can't be written ends it with 10.
port=$(free_port)
start "$port" "$proxy" serve "web=127.0.0.1:$port" --access "$room/none/access"
curl -s --max-time 10 -o /dev/null "http://127.0.0.1:$port/" || true
last=0
ended "$pid" || last=$?
if [ "$last" != 10 ]; then
  fail "it ended with $last where a note was refused"
fi
port=$(free_port)
start "$port" "$proxy" serve "web=127.0.0.1:$port" --requests 1 --access "$room/none/access"
curl -s --max-time 10 -o /dev/null "http://127.0.0.1:$port/" || true
last=0
ended "$pid" || last=$?
if [ "$last" != 10 ]; then
  fail "it ended with $last where the last note was refused"
fi

# A file that isn't there, a port in use, words that are none.
ends 5 serve "web=127.0.0.1:$port" --file "$room/none.toml"
ends 11 serve "web=127.0.0.1:$backend_port" --file "$room/config.toml"
ends 2 serve
exit "$status"
