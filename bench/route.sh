#!/usr/bin/env bash
# What `route` costs with 2,000 routers of plain rules, beside what reading the same file as TOML alone costs: the same file
# with an unknown first key, at which the program stops right after it has read the TOML. And what five plain middlewares
# cost a request, at most 3,000. User instructions, by callgrind; it ends with 1 where five middlewares cost more.
source "$(dirname "$0")/../tests/lib/common.sh"
command -v valgrind >/dev/null || { echo "bench: valgrind isn't here; 'apt-get install valgrind'" >&2; exit 2; }
build
python3 - > "$room/whole.toml" <<'END'
for n in range(2000):
    print(f'[http.routers.r{n}]\nrule = "Host(`h{n}.test`) && PathPrefix(`/app/{n}`)"\nservice = "s"')
print('[[http.services.s.loadBalancer.servers]]\nurl = "http://10.0.0.1"')
END
{ echo 'a = 1'; cat "$room/whole.toml"; } > "$room/stopped.toml"
# instructions FILE LINE [HOST] [TARGET]: of `route` under this file, which answers this line.
instructions() {
  printf 'GET %s HTTP/1.1\r\nHost: %s\r\n\r\n' "${4:-/app/1999/x}" "${3:-h1999.test}" |
    valgrind --tool=callgrind --callgrind-out-file=/dev/null --log-file="$room/log" "$proxy" route "$1" > "$room/out" || true
  grep -qx "$2" "$room/out" || { echo "bench: route answered $(head -c 100 "$room/out")" >&2; exit 1; }
  awk '/Collected/ { print $NF }' "$room/log"
}
whole=$(instructions "$room/whole.toml" 'forward r1999@file http://10.0.0.1:80')
stopped=$(instructions "$room/stopped.toml" 'config Unknown a')
echo "$(date +%F), 2,000 routers, $(wc -c < "$room/whole.toml") bytes"
awk -v whole="$whole" -v stopped="$stopped" 'BEGIN {
  printf "TOML alone %.1f million instructions, `route` %.1f million: %.2f times\n", stopped / 1e6, whole / 1e6, whole / stopped }'

# Three requests that differ by a letter, under one file: their routers are asked one behind the other, by name, and the one in
# the middle has five middlewares. So the middle between the first and the last is what the second costs without them.
cat > "$room/five.toml" <<'END'
[http.routers.alone]
rule = "Host(`a.test`)"
service = "s"
[http.routers.with5]
rule = "Host(`b.test`)"
service = "s"
middlewares = ["peers", "small", "cut", "put", "fields"]
[http.routers.zlone]
rule = "Host(`c.test`)"
service = "s"
[http.middlewares.peers.ipAllowList]
sourceRange = ["10.0.0.0/8", "127.0.0.0/8"]
[http.middlewares.small.buffering]
maxRequestBodyBytes = 65536
[http.middlewares.cut.stripPrefix]
prefixes = ["/v1", "/v2"]
[http.middlewares.put.addPrefix]
prefix = "/internal"
[http.middlewares.fields.headers.customRequestHeaders]
X-Through = "proxy"
[[http.services.s.loadBalancer.servers]]
url = "http://10.0.0.1"
END
first=$(instructions "$room/five.toml" 'forward alone@file http://10.0.0.1:80' a.test /v2/users)
with5=$(instructions "$room/five.toml" 'forward with5@file http://10.0.0.1:80' b.test /v2/users)
last=$(instructions "$room/five.toml" 'forward zlone@file http://10.0.0.1:80' c.test /v2/users)
five=$((with5 - (first + last) / 2))
echo "five plain middlewares cost a request $five instructions"
[ $five -le 3000 ]
