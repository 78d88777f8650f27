#!/usr/bin/env bash
# Puts the proxy beside nginx, HAProxy and the least that a C program can do (`least.c`): one worker each, the same
# backend, one backend connection a request, bodies of 1 KiB, no access log. It needs Debian's packages:
#
#   apt-get install nginx haproxy wrk curl python3 strace valgrind gcc
#   bench/serve.sh [rounds]
#
# CPU is that of the proxying process alone, its kernel time included, so a busy machine moves the rates but hardly the
# ratios.
source "$(dirname "$0")/../tests/lib/common.sh"
rounds=${1:-5}
seconds=2
clients=50
idle=250   # `serve` takes 256 clients at a time
PATH=$PATH:/usr/sbin
for tool in nginx haproxy wrk curl python3 strace valgrind gcc; do
  command -v "$tool" >/dev/null || { echo "bench: $tool isn't here; 'apt-get install $tool'" >&2; exit 2; }
done

build
chmod 755 "$room"   # for the backend, which doesn't run as root

# Each is given a listening port and a backend port of its own, so that none waits for another's ports.
names=(nginx haproxy least proxy)
declare -A port=([nginx]=18080 [haproxy]=18081 [proxy]=18082 [least]=18083)
declare -A back=([nginx]=19080 [haproxy]=19081 [proxy]=19082 [least]=19083)
gcc -O2 -o "$room/least" bench/least.c

mkdir -p "$room/www"
head -c 1024 /dev/zero | tr '\0' x > "$room/www/index.html"
nginx_head="daemon off; pid PID; error_log stderr crit;"
temps() { for kind in client_body proxy fastcgi uwsgi scgi; do echo "${kind}_temp_path $room/temp_$kind;"; done; }

cat > "$room/backend.conf" <<END
${nginx_head/PID/$room/backend.pid} worker_processes 1; events { worker_connections 4096; }
http { access_log off; $(temps) server {
  $(for name in "${names[@]}"; do echo "listen 127.0.0.1:${back[$name]} backlog=1024;"; done)
  root $room/www; } }
END
cat > "$room/nginx.conf" <<END
${nginx_head/PID/$room/nginx.pid} master_process off; events { worker_connections 4096; }
http { access_log off; $(temps) server { listen 127.0.0.1:${port[nginx]} backlog=1024;
  location / { proxy_pass http://127.0.0.1:${back[nginx]}; proxy_http_version 1.1; proxy_set_header Connection close;
    proxy_set_header Host \$http_host; proxy_set_header X-Forwarded-For \$remote_addr; } } }
END
cat > "$room/haproxy.cfg" <<END
global
  nbthread 1
  maxconn 4096
defaults
  mode http
  option httpclose
  timeout connect 5s
  timeout client 60s
  timeout server 60s
frontend front
  no option httpclose
  option http-server-close
  bind 127.0.0.1:${port[haproxy]}
  default_backend back
backend back
  option http-server-close
  option forwardfor
  server backend 127.0.0.1:${back[haproxy]}
END
cat > "$room/proxy.toml" <<END
[http.routers.all]
rule = "PathPrefix(\`/\`)"
service = "backend"
[[http.services.backend.loadBalancer.servers]]
url = "http://127.0.0.1:${back[proxy]}"
END

# The words with which one is started in the foreground, in `command`.
command_of() {
  case $1 in
    nginx) command=(nginx -c "$room/nginx.conf") ;;
    haproxy) command=(haproxy -db -f "$room/haproxy.cfg") ;;
    least) command=("$room/least" "${port[least]}" "${back[least]}") ;;
    proxy) command=("$proxy" serve "web=127.0.0.1:${port[proxy]}" --file "$room/proxy.toml") ;;
  esac
}

# Starts the one with this name, and waits for its first reply.
begin() {
  command_of "$1"
  start "${port[$1]}" "${@:2}" "${command[@]}"
  curl -sf -o /dev/null "http://127.0.0.1:${port[$1]}/" || { echo "bench: $1 doesn't answer" >&2; exit 1; }
}

# Exactly so many requests, one after another, over kept connections.
ask() { curl -sf -o /dev/null "http://127.0.0.1:$1/?[1-$2]"; }

cpu_ticks() { local fields; fields=$(sed 's/.*) //' "/proc/$1/stat"); set -- $fields; echo $((${12} + ${13})); }
anonymous_kib() { awk '/^RssAnon/ { print $2 }' "/proc/$1/status"; }
load() { wrk -t1 -c"$2" -d"${3:-$seconds}s" "http://127.0.0.1:$1/"; }
requests_in() { awk '/requests in/ { print $1 }' "$1"; }
failures_in() { awk '/Socket errors/ { gsub(/,/, ""); n += $4 + $6 + $8 + $10 } /Non-2xx/ { n += $NF } END { print n + 0 }' "$1"; }

start "${back[nginx]}" nginx -c "$room/backend.conf"

declare -A ticks total failed memory calls_1 calls_many instructions beside
for name in "${names[@]}"; do ticks[$name]=0; total[$name]=0; failed[$name]=0; done
tick=$(getconf CLK_TCK)

# CPU: by turns, so that a noise of the machine meets all of them.
declare -A process
for name in "${names[@]}"; do begin "$name"; process[$name]=$pid; done
for _ in $(seq 1 "$rounds"); do
  for name in "${names[@]}"; do
    before=$(cpu_ticks "${process[$name]}")
    load "${port[$name]}" "$clients" > "$room/wrk"
    after=$(cpu_ticks "${process[$name]}")
    ticks[$name]=$((ticks[$name] + after - before))
    total[$name]=$((total[$name] + $(requests_in "$room/wrk")))
    failed[$name]=$((failed[$name] + $(failures_in "$room/wrk")))
  done
done

# System calls, by one client and by many.
count_calls() {
  strace -f -c -o "$room/calls" -p "$2" 2>/dev/null &
  local tracer=$!
  sleep 1
  load "${port[$1]}" "$3" > "$room/wrk"
  kill -INT "$tracer"; wait "$tracer" || true
  awk -v n="$(requests_in "$room/wrk")" '$NF == "total" { printf "%.1f", $(NF == 5 ? 3 : 4) / n; exit }' "$room/calls"
}
for name in "${names[@]}"; do
  calls_1[$name]=$(count_calls "$name" "${process[$name]}" 1)
  calls_many[$name]=$(count_calls "$name" "${process[$name]}" "$clients")
  stop "${process[$name]}"
done

# Memory of connections that have had a reply and wait, in a new process.
cat > "$room/idle.py" <<'END'
import socket, sys
links = []
for _ in range(int(sys.argv[2])):
    link = socket.create_connection(("127.0.0.1", int(sys.argv[1])), 10)
    link.sendall(b"GET / HTTP/1.1\r\nHost: bench.test\r\n\r\n")
    got = b""
    while not got.endswith(b"x" * 1024):
        piece = link.recv(65536)
        if not piece:
            sys.exit("bench: a connection was closed")
        got += piece
    links.append(link)
print("open", flush=True)
sys.stdin.read()
END
hold() { coproc holder { exec python3 "$room/idle.py" "${port[$1]}" "$2"; }; read -r _ <&"${holder[0]}"; }
let_go() { kill "$holder_PID"; wait "$holder_PID" 2>/dev/null || true; }
for name in "${names[@]}"; do
  begin "$name"
  before=$(anonymous_kib "$pid")
  hold "$name" "$idle"
  memory[$name]=$(awk -v grown="$(($(anonymous_kib "$pid") - before))" -v n="$idle" 'BEGIN { printf "%.2f", grown / n }')
  let_go
  stop "$pid"
done

# User instructions: what 1,000 requests more cost, alone and beside idle connections.
collected() {
  begin "$1" valgrind --tool=callgrind --callgrind-out-file=/dev/null
  [ "$3" = 0 ] || hold "$1" "$3"
  ask "${port[$1]}" "$2"
  [ "$3" = 0 ] || let_go
  stop "$pid"
  awk '/Collected/ { print $NF }' "$room/${port[$1]}.log"
}
more() { echo $((($(collected "$1" 1100 "$2") - $(collected "$1" 100 "$2")) / 1000)); }
for name in "${names[@]}"; do
  instructions[$name]=$(more "$name" 0)
  beside[$name]=$(more "$name" "$idle")
done

microseconds() { awk -v t="${ticks[$1]}" -v hz="$tick" -v n="${total[$1]}" 'BEGIN { printf "%.1f", t / hz * 1e6 / n }'; }
reference=$(microseconds nginx)
echo "$(date +%F), $(nproc) processors: $(awk -F': ' '/model name/ { print $2; exit }' /proc/cpuinfo)"
echo "$(nginx -v 2>&1 | sed 's/.*: //'), $(haproxy -v | awk 'NR == 1 { print $1, $3 }')"
printf '| %-8s | %10s | %14s | %13s | %21s | %17s | %19s | %18s | %9s | %7s |\n' '' 'us CPU a request' 'ratio to nginx' 'instructions' "beside $idle idle links" 'calls, 1 client' "calls, $clients clients" 'KiB an idle link' 'requests' 'failed'
echo '|---|---|---|---|---|---|---|---|---|---|'
for name in "${names[@]}"; do
  spent=$(microseconds "$name")
  ratio=$(awk -v a="$spent" -v b="$reference" 'BEGIN { printf "%.2f", a / b }')
  printf '| %-8s | %10s | %14s | %13s | %21s | %17s | %19s | %18s | %9s | %7s |\n' "$name" "$spent" "$ratio" "${instructions[$name]}" "${beside[$name]}" "${calls_1[$name]}" "${calls_many[$name]}" "${memory[$name]}" "${total[$name]}" "${failed[$name]}"
done
