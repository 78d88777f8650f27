#!/usr/bin/env bash
# What `check` costs over 2,000 routers, 500 services and 500 middlewares, beside what reading the same file as TOML alone
# costs: the same file with an unknown first key, at which the program stops right after it has read the TOML. User
# instructions, by callgrind. The aim is three times as many at most; it ends with 1 where they are more.
source "$(dirname "$0")/../tests/lib/common.sh"
command -v valgrind >/dev/null || { echo "bench: valgrind isn't here; 'apt-get install valgrind'" >&2; exit 2; }
build
# Each router has a plain rule, a service and two middlewares. Of each ten services seven are balancers of two servers, and
# one each is a weighted one, a mirroring and a failover of earlier ones; of each ten middlewares one is a chain of three.
python3 - >"$room/whole.toml" <<'END'
for n in range(2000):
    print(f'[http.routers.r{n}]\nrule = "Host(`h{n}.test`) && PathPrefix(`/app/{n}`)"')
    print(f'service = "s{n % 500}"\nmiddlewares = ["m{n % 500}", "m{(n + 7) % 500}"]')
for n in range(500):
    base, kind = n - n % 10, n % 10
    if kind < 7:
        for at in (1, 2):
            print(f'[[http.services.s{n}.loadBalancer.servers]]\nurl = "http://10.{at}.{n // 256}.{n % 256}:8080"\nweight = {at}')
    elif kind == 7:
        for at in range(3):
            print(f'[[http.services.s{n}.weighted.services]]\nname = "s{base + at}"\nweight = {at + 1}')
    elif kind == 8:
        print(f'[http.services.s{n}.mirroring]\nservice = "s{base + 3}"\nmirrors = [{{ name = "s{base + 4}", percent = 10 }}]')
    else:
        print(f'[http.services.s{n}.failover]\nservice = "s{base + 5}"\nfallback = "s{base + 6}"')
kinds = [
    'addPrefix]\nprefix = "/internal"',
    'stripPrefix]\nprefixes = ["/app", "/shop"]',
    'replacePath]\npath = "/index.html"',
    'headers.customRequestHeaders]\nX-Through = "proxy"\nCookie = ""',
    'headers.customResponseHeaders]\nServer = ""',
    'ipAllowList]\nsourceRange = ["10.0.0.0/8", "2001:db8::/32"]',
    'buffering]\nmaxRequestBodyBytes = 1048576',
    'redirectScheme]\nscheme = "https"\npermanent = true',
    'addPrefix]\nprefix = "/other"',
]
for n in range(500):
    base, kind = n - n % 10, n % 10
    if kind < 9:
        print(f'[http.middlewares.m{n}.{kinds[kind]}')
    else:
        print(f'[http.middlewares.m{n}.chain]\nmiddlewares = ["m{base}", "m{base + 1}", "m{base + 3}"]')
END
{ echo 'a = 1'; cat "$room/whole.toml"; } >"$room/stopped.toml"
# instructions FILE LINE: of `check` over this file, whose text ends with this line.
instructions() {
  valgrind --tool=callgrind --callgrind-out-file=/dev/null --log-file="$room/log" "$proxy" check "$1" >"$room/out" || true
  [ "$(tail -n 1 "$room/out")" = "$2" ] || { echo "bench: check answered $(tail -c 100 "$room/out")" >&2; exit 1; }
  awk '/Collected/ { print $NF }' "$room/log"
}
whole=$(instructions "$room/whole.toml" 'end')
# Everything in it can be used.
if grep ' disabled ' "$room/out" >&2 || [ "$(wc -l <"$room/out")" != 3702 ]; then
  echo "bench: check wrote $(wc -l <"$room/out") lines, and 3,702 are wanted, none of them disabled" >&2
  exit 1
fi
stopped=$(instructions "$room/stopped.toml" 'config Unknown a')
echo "$(date +%F), 2,000 routers, 500 services, 500 middlewares, $(wc -c <"$room/whole.toml") bytes"
awk -v whole="$whole" -v stopped="$stopped" 'BEGIN {
  printf "TOML alone %.1f million instructions, `check` %.1f million: %.2f times\n", stopped / 1e6, whole / 1e6, whole / stopped
  exit whole > 3 * stopped }'
