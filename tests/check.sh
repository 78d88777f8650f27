#!/usr/bin/env bash
# `check` on the built program: what it writes of each example, each reason against a service and a middleware, and each of
# its statuses.
source "$(dirname "$0")/lib/common.sh"
needs python3
build

# checked TEXT FILE: what `check FILE` writes, but for its first and its last line.
checked() { answers 0 $'generation 1\n'"$1"$'\nend\n' "check $2" check "$2"; }
# written TEXT WHAT: the same of the file on standard input.
written() {
  cat >"$room/file.toml"
  answers 0 $'generation 1\n'"$1"$'\nend\n' "$2" check "$room/file.toml"
}

checked 'router 0 r@file priority 15 enabled
service s@file balancer node 0
server 0 0 127.0.0.1:9000 weight 1' examples/first.toml

# A service of each kind.
checked 'router 0 shop@file priority 17 enabled
service shop@file balancer node 0
server 0 0 10.0.0.1:8080 weight 3
server 0 1 10.0.0.2:8080 weight 2
server 0 2 [2001:db8::3]:80 weight 1
server 0 3 resting.shop.test:8080 weight 0' examples/balancer.toml
checked 'router 0 site@file priority 17 enabled
service new@file balancer node 0
server 0 0 10.0.0.2:8080 weight 1
service old@file balancer node 1
server 1 0 10.0.0.1:8080 weight 1
service site@file weighted node 2' examples/weighted.toml
checked 'router 0 site@file priority 17 enabled
service main@file balancer node 0
server 0 0 10.0.0.1:8080 weight 1
service next@file balancer node 1
server 1 0 10.0.0.2:8080 weight 1
service site@file mirroring node 2' examples/mirroring.toml
checked 'router 0 site@file priority 17 enabled
service here@file balancer node 0
server 0 0 10.0.0.1:8080 weight 1
server 0 1 10.0.0.2:8080 weight 1
service site@file failover node 2
service there@file balancer node 1
server 1 0 10.1.0.1:8080 weight 1' examples/failover.toml
two_servers='router 0 shop@file priority 17 enabled
service shop@file balancer node 0
server 0 0 10.0.0.1:8080 weight 1
server 0 1 10.0.0.2:8080 weight 1'
checked "$two_servers" examples/sticky.toml
checked "$two_servers" examples/health-check.toml
checked 'router 0 astray@file priority 19 disabled BadService
router 1 copied@file priority 19 enabled
router 2 guarded@file priority 20 enabled
router 3 site@file priority 17 enabled
service copied@file mirroring node 2
service guarded@file failover node 3
service lost@file disabled Missing
service round@file disabled Cycle
service two-versions@file weighted node 4
service version-1@file balancer node 0
server 0 0 10.0.0.1:8080 weight 3
server 0 1 10.0.0.2:8080 weight 1
service version-2@file balancer node 1
server 1 0 version-2.site.test:80 weight 1' examples/graph.toml
checked 'router 0 copied@file priority 19 enabled
router 1 guarded@file priority 20 enabled
router 2 site@file priority 17 enabled
service copied@file mirroring node 3
service guarded@file failover node 4
service none-yet@file balancer node 2
service two-versions@file weighted node 5
service version-1@file balancer node 0
server 0 0 10.0.0.1:8080 weight 3
server 0 1 [2001:db8::2]:8080 weight 1
service version-2@file balancer node 1
server 1 0 version-2.site.test:80 weight 1' examples/services.toml

# Middlewares.
checked 'router 0 api@file priority 37 enabled
router 1 plain@file priority 18 enabled
service api@file balancer node 0
server 0 0 10.0.0.1:8080 weight 1
middleware below@file enabled
middleware fields@file enabled
middleware guard@file enabled
middleware inside@file enabled
middleware one-page@file enabled
middleware shown-as-v1@file enabled
middleware small@file enabled
middleware to-https@file enabled
middleware to-new-name@file enabled
middleware without-version@file enabled' examples/middlewares.toml
checked 'router 0 secure@file priority 19 disabled Tls
router 1 web@file priority 41 enabled
service app@file weighted node 2
service v1@file balancer node 0
server 0 0 10.0.0.1:8080 weight 1
service v2@file balancer node 1
server 1 0 10.0.0.2:8080 weight 1
middleware strip@file enabled' examples/app.toml

# What `check` writes of a file that is served is what `serve` writes of it.
for file in examples/first.toml examples/shop.toml examples/rules.toml examples/routers.toml; do
  served "$file"
  answers 0 "$(cat "$room/served")"$'\n' "$file, as it is served" check "$file"
done

# A file that declares nothing is generation 0.
: >"$room/empty.toml"
answers 0 $'generation 0\nend\n' 'a file that declares nothing' check "$room/empty.toml"

# Each reason against a service. Of two the first in this order is told.
written 'service a@file disabled Unsupported' 'an option that is not supported, beside a bad URL' <<'TOML'
[http.services.a.loadBalancer]
serversTransport = "t"
[[http.services.a.loadBalancer.servers]]
url = "https://a"
TOML
written 'service a@file disabled Unsupported' 'a kind that is not known' <<<'[http.services.a.leastConn]'
# servers COUNT: so many servers of the service a.
servers() { for i in $(seq "$1"); do printf '[[http.services.a.loadBalancer.servers]]\nurl = "http://a:%s"\n' "$i"; done; }
written 'service a@file disabled TooManyChildren' '65 servers' < <(servers 65)
written "service a@file balancer node 0
$(for i in $(seq 64); do echo "server 0 $((i - 1)) a:$i weight 1"; done)" '64 servers' < <(servers 64)
written 'service a@file disabled Scheme' 'a server under https before one without a host' <<'TOML'
[http.services.a.loadBalancer]
servers = [{ url = "https://a" }, { url = "http://" }]
TOML
written 'service a@file disabled BadUrl' 'a server without a host before one under https' <<'TOML'
[http.services.a.loadBalancer]
servers = [{ url = "http://" }, { url = "https://a" }]
TOML
written 'service a@file balancer node 0
server 0 0 a:80 weight 65535
server 0 1 b:80 weight 1
service b@file disabled WeightsTooLarge' 'weights of 65,536 and of 65,537 together' <<'TOML'
[http.services.a.loadBalancer]
servers = [{ url = "http://a", weight = 65535 }, { url = "http://b" }]
[http.services.b.loadBalancer]
servers = [{ url = "http://a", weight = 65536 }, { url = "http://b" }]
TOML
written 'service a@file disabled Missing
service b@file balancer node 0
server 0 0 b:80 weight 1' "a service of another provider's name" <<'TOML'
[http.services.a.failover]
service = "b"
fallback = "b@consul"
[http.services.b.loadBalancer]
servers = [{ url = "http://b" }]
TOML
written 'service a@file disabled Cycle
service b@file disabled Cycle
service c@file disabled Child' 'two that lead to each other, and one to them' <<'TOML'
[[http.services.a.weighted.services]]
name = "b"
[[http.services.b.weighted.services]]
name = "a"
[[http.services.c.weighted.services]]
name = "a"
TOML
written 'service a@file disabled Scheme
service b@file disabled Child' 'a service over a faulty one' <<'TOML'
[http.services.a.loadBalancer]
servers = [{ url = "h2c://a" }]
[http.services.b.failover]
service = "a"
fallback = "a"
TOML
# Services one over the other: eight deep, and nine.
written 'service a1@file balancer node 0
server 0 0 a:80 weight 1
service a2@file weighted node 1
service a3@file weighted node 2
service a4@file weighted node 3
service a5@file weighted node 4
service a6@file weighted node 5
service a7@file weighted node 6
service a8@file weighted node 7
service a9@file disabled TooDeep' 'eight deep, and nine' < <(
  printf '[[http.services.a1.loadBalancer.servers]]\nurl = "http://a"\n'
  for i in $(seq 2 9); do printf '[[http.services.a%s.weighted.services]]\nname = "a%s"\n' "$i" $((i - 1)); done)
# of NAME COUNT: a weighted service that names the service a so often.
of() { for _ in $(seq "$2"); do printf '[[http.services.%s.weighted.services]]\nname = "a"\n' "$1"; done; }
written 'service a@file balancer node 0
server 0 0 a:80 weight 1
service b@file weighted node 1
service c@file disabled TooDeep
service d@file disabled TooManyChildren' 'one named 63, 64 and 65 times' < <(servers 1 | sed 's/:1"/"/'; of b 63; of c 64; of d 65)
# 500 services in a ring.
written "$(for i in $(seq 500); do echo "a$i@file"; done | sort | sed 's/.*/service & disabled Cycle/')" 'a ring of 500 services' < <(
  for i in $(seq 500); do printf '[[http.services.a%s.weighted.services]]\nname = "a%s"\n' "$i" $((i % 500 + 1)); done)

# Each reason against a middleware, and what follows for the routers that name one.
written 'router 0 bad@file priority 15 disabled BadMiddleware
router 1 lost@file priority 15 disabled MissingMiddleware
service s@file balancer node 0
server 0 0 s:80 weight 1
middleware bad-network@file disabled Value
middleware child@file disabled Child
middleware fine@file enabled
middleware forbidden@file disabled Value
middleware forced@file disabled Unsupported
middleware lost@file disabled Missing
middleware other@file disabled Unsupported
middleware round-too@file disabled Cycle
middleware round@file disabled Cycle
middleware too-big@file disabled TooBig
middleware unread@file disabled Syntax' 'each reason against a middleware' <<'TOML'
[http.routers.bad]
rule = "PathPrefix(`/`)"
service = "s"
middlewares = ["fine", "bad-network"]
[http.routers.lost]
rule = "PathPrefix(`/`)"
service = "s"
middlewares = ["bad-network", "nowhere"]
[[http.services.s.loadBalancer.servers]]
url = "http://s"
[http.middlewares.bad-network.ipAllowList]
sourceRange = ["10.0.0.0/33"]
[http.middlewares.child.chain]
middlewares = ["fine", "lost"]
[http.middlewares.fine.addPrefix]
prefix = "/fine"
[http.middlewares.forbidden.headers.customRequestHeaders]
Connection = ""
[http.middlewares.forced.stripPrefix]
prefixes = ["/a"]
forceSlash = true
[http.middlewares.lost.chain]
middlewares = ["fine", "nowhere"]
[http.middlewares.other.rateLimit]
average = 1
[http.middlewares.round.chain]
middlewares = ["round-too"]
[http.middlewares.round-too.chain]
middlewares = ["fine", "round"]
[http.middlewares.too-big.replacePathRegex]
regex = "((a{1000}){1000}){1000}"
replacement = "b"
[http.middlewares.unread.redirectRegex]
regex = "("
replacement = "b"
TOML
# Chains in chains: eight deep, and nine. A chain of 64, and of 65; a router with 65 in all.
written 'router 0 r@file priority 15 disabled ChainTooLong
service s@file balancer node 0
server 0 0 s:80 weight 1
middleware c1@file enabled
middleware c2@file enabled
middleware c3@file enabled
middleware c4@file enabled
middleware c5@file enabled
middleware c6@file enabled
middleware c7@file enabled
middleware c8@file enabled
middleware c9@file disabled TooDeep
middleware long@file enabled
middleware longer@file disabled TooDeep' 'chains at their limits' < <(
  printf '[http.routers.r]\nrule = "PathPrefix(`/`)"\nservice = "s"\nmiddlewares = ["long", "c1"]\n'
  printf '[[http.services.s.loadBalancer.servers]]\nurl = "http://s"\n'
  printf '[http.middlewares.c1.addPrefix]\nprefix = "/a"\n'
  for i in $(seq 2 9); do printf '[http.middlewares.c%s.chain]\nmiddlewares = ["c%s"]\n' "$i" $((i - 1)); done
  printf '[http.middlewares.long.chain]\nmiddlewares = [%s]\n' "$(for _ in $(seq 64); do printf '"c1",'; done)"
  printf '[http.middlewares.longer.chain]\nmiddlewares = [%s]\n' "$(for _ in $(seq 65); do printf '"c1",'; done)")
# Patterns are counted, those of middlewares by name and before those of routers.
patterns() { for i in $(seq "$1"); do printf '[http.middlewares.m%03d.redirectRegex]\nregex = "^%s$"\nreplacement = "b"\n' "$i" "$i"; done; }
lines() { for i in $(seq "$1"); do printf 'middleware m%03d@file enabled\n' "$i"; done; }
under='[http.routers.r]
rule = "PathRegexp(`a`)"
service = "s"
[[http.services.s.loadBalancer.servers]]
url = "http://s"'
written "router 0 r@file priority 15 enabled
service s@file balancer node 0
server 0 0 s:80 weight 1
$(lines 255)" '256 patterns' < <(echo "$under"; patterns 255)
written "router 0 r@file priority 15 disabled TooManyPatterns
service s@file balancer node 0
server 0 0 s:80 weight 1
$(lines 256)
middleware m257@file disabled TooManyPatterns" '258 patterns' < <(echo "$under"; patterns 257)

# What is refused.
answers 3 $'config NotToml\n' 'a file that is no TOML' check README.md
answers 3 $'config Unknown http.routers.r.rules\n' 'a misspelt option' check <(printf '[http.routers.r]\nrules = ""\n')
answers 5 '' 'a file that is not there' check examples/no-such-file.toml
bytes $((mib + 1)) ' ' >"$room/long.toml"
answers 8 $'too long\n' 'a file of more than 1 MiB' check "$room/long.toml"
for words in 'check' 'check a b' 'check --entry web examples/first.toml' 'check examples/app.toml --consul traefik'; do
  timeout 20 "$proxy" $words >"$room/answer" && got=0 || got=$?
  [ "$got" = 2 ] || fail "'$words' ends with $got, and 2 is wanted"
done
exit "$status"
