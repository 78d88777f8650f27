#!/usr/bin/env bash
# The built program answers the README's examples as they are written there, and each file of examples/.
source "$(dirname "$0")/lib/common.sh"
needs python3
build

# expect STATUS LINE FILE [WORD..]: what `route FILE WORD..` answers to the head on standard input: one line, or nothing.
expect() { answers "$1" "${2:+$2$'\n'}" "route $3" route "${@:3}"; }

# head_for HOST TARGET [LINE] [METHOD]
head_for() { printf '%s %s HTTP/1.1\r\nHost: %s\r\n%s\r\n' "${4:-GET}" "$2" "$1" "${3:+$3$'\r\n'}"; }

expect 0 'forward r@file http://127.0.0.1:9000' examples/first.toml < examples/first.request
expect 0 'forward admin@file http://10.0.0.9:8080' examples/shop.toml < <(head_for shop.test /admin)
expect 0 'forward shop@file http://10.0.0.1:80' examples/shop.toml < <(head_for shop.test /)
expect 0 '404' examples/shop.toml < <(head_for nobody.test /)
expect 0 'forward admin@file http://10.0.0.9:8080' examples/shop.toml < <(head_for shop.test /a/%2e%2e/adm%69n)
expect 4 'request BadEscape' examples/shop.toml < <(head_for shop.test /%2)
expect 3 'config NotToml' README.md < <(head_for shop.test /)
expect 5 '' examples/no-such-file.toml < <(head_for shop.test /)

expect 0 'forward last@file http://10.0.0.2:80' examples/routers.toml --entry admin --peer 10.1.2.3 < <(head_for a.test /)

# The README's session: a router beside that of first.toml.
cat examples/first.toml - >"$room/my.toml" <<'TOML'
[http.routers.private]
rule = "PathPrefix(`/private`)"
service = "vault"
[[http.services.vault.loadBalancer.servers]]
url = "http://127.0.0.1:9001"
TOML
expect 0 'forward private@file http://127.0.0.1:9001' "$room/my.toml" < <(head_for a.test /x/../private/a)

# Each matcher, by the router that it names.
rule() { expect 0 "forward $1@file http://10.0.0.1:8080" examples/rules.toml < <(shift; head_for "$@"); }
rule host Host.Test. /
rule host-pattern ab.pattern.test /
rule path x.test /path
rule path-prefix x.test /prefix/a
rule path-prefix x.test /a/%2e%2e/prefi%78/a
rule path-pattern x.test /items/17
rule method x.test / '' OPTIONS
rule field x.test / 'X-Group: testers'
rule field-pattern x.test / 'User-Agent: SomeBot/1'
rule pair x.test '/?a=b&mode=dark+blue'
rule empty-pair x.test '/?debug'
rule pair-pattern x.test '/?page=12'
rule peer x.test /from-here
rule all-of www.shop.test /cart/1
rule quoted quoted.test / 'X-Mark: a "b" ` c'
for target in / /paths /prefix /items/x '/?page=1234' /from-there; do
  expect 0 '404' examples/rules.toml < <(head_for x.test "$target")
done
expect 0 '404' examples/rules.toml < <(head_for shop.test /cart '' TRACE)

# Each option of a router.
router() { expect 0 "forward $1@file $2" examples/routers.toml < <(head_for "$3" "$4"); }
router at-web http://10.0.0.1:8080 a.test /
router at-web http://10.0.0.1:8080 a.test /admin
router by-priority http://10.0.0.2:80 a.test /up
router last http://10.0.0.2:80 b.test /
router watched http://10.0.0.1:8080 b.test /watched
served examples/routers.toml
cat >"$room/wanted" <<'TEXT'
generation 1
router 0 at-admin@file priority 38 enabled
router 1 at-web@file priority 14 enabled
router 2 by-priority@file priority 1000 enabled
router 3 last@file priority -1 enabled
router 4 lost@file priority 2003 disabled MissingService
router 5 misspelt@file priority 2002 disabled Rule UnknownMatcher 0
router 6 old-syntax@file priority 2001 disabled Unsupported
router 7 secure@file priority 2000 disabled Tls
router 8 watched@file priority 3000 enabled
service a@file balancer node 0
server 0 0 10.0.0.1:8080 weight 1
service b@file balancer node 1
server 1 0 10.0.0.2:80 weight 1
end
TEXT
cmp -s "$room/served" "$room/wanted" || fail "serve makes of routers.toml '$(cat "$room/served")'"

# The least and the greatest priority, one over it, and rules that are none: such a router leaves the others alone.
# A router by its name, its rule, and its priority if it has its own.
add() { printf '[http.routers.%s]\nrule = "%s"\nservice = "s"\n%s\n' "$1" "$2" "${3:+priority = $3}" >>"$room/rules.toml"; }
add least 'PathPrefix(`/`)' -9223372036854775808
add low 'PathPrefix(`/x`)' -1
add own 'PathPrefix(`/x/`)'
add zero 'Path(`/x/y/z/zero`)' 0
add most 'Path(`/most`)' 9223372036854774807
add over 'PathPrefix(`/`)' 9223372036854774808
add arity 'Host(`a`, `b`)' 1000
add lex "Host('a')" 1000
add unexpected 'Host(`a`) &&' 1000
add unknown 'Foo(`a`)' 1000
add value 'Path(`x`)' 1000
add bits 'ClientIP(`10.0.0.0/33`)' 1000
add net 'Path(`/net`) && ClientIP(`::ffff:10.0.0.0/104`)' 1000
add mixed 'Host(`mixed`) || Path(`/mixed`) && !Method(`get`)' 1000
printf '[[http.services.s.loadBalancer.servers]]\nurl = "http://10.0.0.1:8080"\n' >>"$room/rules.toml"
judged() { expect 0 "forward $1@file http://10.0.0.1:8080" "$room/rules.toml" < <(shift; head_for "$@"); }
judged least a /
judged low a /x
judged own a /x/y
judged zero a /x/y/z/zero
judged most a /most
judged mixed mixed /
judged mixed a /mixed '' POST
judged least a /mixed
expect 0 'forward net@file http://10.0.0.1:8080' "$room/rules.toml" --peer ::ffff:10.0.0.1 < <(head_for a /net)
expect 0 'forward least@file http://10.0.0.1:8080' "$room/rules.toml" --peer 11.0.0.1 < <(head_for a /net)
expect 0 'forward least@file http://10.0.0.1:8080' "$room/rules.toml" --peer 10.0.0.1 < <(head_for a /)
served "$room/rules.toml"
# refused NAME REASON: why a router of this file is disabled.
refused() {
  grep -qE "^router [0-9]+ $1@file priority -?[0-9]+ disabled $2\$" "$room/served" || fail "$1: '$(grep " $1@file " "$room/served")', and '$2' is wanted"
}
refused over Priority
refused arity 'Rule Arity 0'
refused lex 'Rule Lex 5'
refused unexpected 'Rule Unexpected 12'
refused unknown 'Rule UnknownMatcher 0'
refused value 'Rule Value 5'
refused bits 'Compile Address 0'
grep -v '^priority = -9223372036854775808$' "$room/rules.toml" | sed '/^\[http.routers.least\]/,/^service/d' >"$room/without.toml"
expect 0 '404' "$room/without.toml" < <(head_for a /)

# A file that is read and not served yet.
expect 3 'config Later' examples/services.toml < <(head_for site.test /)

# Middlewares, each kind by its own file: where a request goes, or which of them answers it, by its place in the list that
# stands there once chains are replaced by their members.
goes() { expect 0 "forward $1@file http://10.0.0.1:8080" "examples/$2.toml" "${@:5}" < <(head_for "$3" "$4"); }
stops() { expect 0 "stop $1@file $2 $3" "examples/$4.toml" "${@:7}" < <(head_for "$5" "$6"); }
goes api add-prefix api.test /users
goes api strip-prefix a.test /v2/users
goes app replace-path app.test /any/page
goes api replace-path-regex a.test /users/17/edit
goes api headers api.test /
goes upload buffering a.test /upload
goes admin ip-allow-list a.test /admin --peer 10.1.2.3
goes admin ip-allow-list a.test /admin --peer 192.168.1.7
goes admin ip-allow-list a.test /admin --peer ::ffff:10.1.2.3
goes admin ip-allow-list a.test /admin --peer 2001:db8::1
stops admin 0 403 ip-allow-list a.test /admin
stops admin 0 403 ip-allow-list a.test /x/../%61dmin --peer 192.168.1.8
stops admin 0 403 ip-allow-list a.test /admin --peer ::a01:203
stops admin 0 403 ip-allow-list a.test /admin --peer 2001:db9::1
goes admin chain a.test /admin --peer 10.1.2.3
stops admin 1 403 chain a.test /admin
stops plain 0 301 redirect-scheme plain.test '/x?q=1'
stops moved 0 302 redirect-scheme moved.test:8443 /
expect 0 'stop plain@file 0 308' examples/redirect-scheme.toml < <(head_for plain.test / '' DELETE)
expect 0 'stop moved@file 0 307' examples/redirect-scheme.toml < <(head_for moved.test / '' OPTIONS)
goes there redirect-scheme there.test:8080 '/x?q=1'
stops there 0 302 redirect-scheme there.test '/x?q=1'
stops old 0 302 redirect-regex old.test '/a?b'
goes old redirect-regex new.test '/a?b'
stops api 0 403 middlewares api.test /v1/
goes api middlewares api.test /v1/ --peer 10.1.2.3
stops plain 0 301 middlewares plain.test /

# What middlewares make of a request shows in a redirect that stands behind them, and is asked of it.
# becomes URL HOST TARGET [PLACE]: behind the middleware `it` on standard input the URL is this one.
becomes() {
  local pattern
  pattern=$(sed 's/[].[?*+(){}|^$\]/\\&/g' <<<"$1")
  {
    printf '[http.routers.r]\nrule = "PathPrefix(`/`)"\nservice = "s"\nmiddlewares = ["it", "shown"]\n'
    printf '[[http.services.s.loadBalancer.servers]]\nurl = "http://10.0.0.1"\n'
    printf "[http.middlewares.shown.redirectRegex]\nregex = '^%s\$'\nreplacement = 'http://shown.test/'\n" "$pattern"
    cat
  } >"$room/it.toml"
  expect 0 "stop r@file ${4:-1} 302" "$room/it.toml" < <(head_for "$2" "$3")
}
# is KIND OPTIONS: the middleware `it` of this kind.
is() { printf '[http.middlewares.it.%s]\n%s\n' "$1" "$2"; }
becomes 'http://a.test/internal/a?x' a.test '/a?x' < <(is addPrefix 'prefix = "/internal"')
becomes 'http://a.test/in/a' a.test /a < <(is addPrefix 'prefix = "in"')
becomes 'http://a.test/a%20b%3F%23/a' a.test /a < <(is addPrefix 'prefix = "/a b?#"')
becomes 'http://a.test/?x' a.test '/app?x' < <(is stripPrefix 'prefixes = ["/app"]')
becomes 'http://a.test/le' a.test /apple < <(is stripPrefix 'prefixes = ["/app", "/appl"]')
becomes 'http://a.test/x' a.test /app/x < <(is stripPrefix 'prefixes = ["/b", "/app", "/app/x"]')
becomes 'http://a.test/other' a.test /other < <(is stripPrefix 'prefixes = ["/app"]')
becomes 'http://a.test:8080/index.html?x' a.test:8080 '/a/b?x' < <(is replacePath 'path = "/index.html"')
becomes 'http://a.test/edit-user/17' a.test /users/17/edit < <(is replacePathRegex "regex = '^/users/([0-9]+)/edit\$'"$'\nreplacement = "/edit-user/$1"')
becomes 'http://a.test/bxb' a.test /axa < <(is replacePathRegex $'regex = "a"\nreplacement = "b"')
becomes 'http://a.test/' a.test /axa < <(is replacePathRegex $'regex = "^.*$"\nreplacement = ""')
becomes 'http://a.test/axa' a.test /axa < <(is replacePathRegex $'regex = "^a"\nreplacement = "b"')
becomes 'http://b.test/a' a.test /a < <(is headers.customRequestHeaders 'Host = "b.test"')
becomes 'http://a.test/a' a.test /a < <(is headers.customResponseHeaders 'Host = "b.test"')
becomes 'http://a.test/internal/users' a.test /v1/users 2 < <(
  is chain 'middlewares = ["cut", "put"]'
  printf '[http.middlewares.cut.stripPrefix]\nprefixes = ["/v1"]\n[http.middlewares.put.addPrefix]\nprefix = "/internal"\n')

# A middleware that can't be used disables the router that names it, and no other.
disables() {
  { cat; printf '[http.routers.with]\nrule = "PathPrefix(`/`)"\nservice = "s"\nmiddlewares = ["it"]\n'
    printf '[http.routers.without]\nrule = "Path(`/x`)"\nservice = "s"\n[[http.services.s.loadBalancer.servers]]\nurl = "http://s"\n'; } >"$room/it.toml"
  expect 0 '404' "$room/it.toml" < <(head_for a.test /)
  expect 0 'forward without@file http://s:80' "$room/it.toml" < <(head_for a.test /x)
}
disables < <(is ipAllowList 'sourceRange = ["10.0.0.0/33"]')
disables < <(is stripPrefix $'prefixes = ["/x"]\nforceSlash = true')
disables < <(is headers.customRequestHeaders 'Content-Length = "0"')
disables < <(is chain 'middlewares = ["it"]')
disables < <(is chain 'middlewares = ["nowhere"]')
disables < <(is basicAuth 'users = []')

# How files would be served, and why one isn't.
answers 0 'generation 1
router 0 r@file priority 15 enabled
service s@file balancer node 0
server 0 0 127.0.0.1:9000 weight 1
end
' 'first.toml' check examples/first.toml
answers 0 'generation 1
router 0 copied@file priority 19 enabled
router 1 guarded@file priority 20 enabled
router 2 site@file priority 17 enabled
service copied@file mirroring node 3
service guarded@file failover node 4
service none-yet@file balancer node 2
service two-versions@file weighted node 5
service version-1@file balancer node 0
server 0 0 10.0.0.1:8080 weight 3
server 0 1 [2001:db8::2]:8080 weight 1
service version-2@file balancer node 1
server 1 0 version-2.site.test:80 weight 1
end
' 'services.toml' check examples/services.toml
: >"$room/empty.toml"
answers 0 $'generation 0\nend\n' 'an empty file' check "$room/empty.toml"
answers 3 $'config NotToml\n' 'no TOML' check README.md
answers 5 '' 'no file' check examples/no-such-file.toml

# What `replay` answers to a script is written out here byte for byte.
wanted='published 1
link 0 sent HTTP/1.1 200 OK\r\nContent-Length: 2\r\n\r\nok
link 1 to 127.0.0.1:9000 sent GET / HTTP/1.1\r\nHost: a.test\r\nX-Forwarded-For: 127.0.0.1\r\nX-Forwarded-Host: a.test\r\nX-Forwarded-Port: 80\r\nX-Forwarded-Proto: http\r\nX-Real-Ip: 127.0.0.1\r\nConnection: close\r\n\r\n
note 0 1 gen 1 router 0 status 200 Passed looks 0:1 picks 0:0-1:0 turns - backs 1
note 0 end Client
'
answers 0 "$wanted" 'first.script' replay < examples/first.script
answers 4 $'script 11 NotEnabled pin Look\n' 'a second pin' replay < <(sed '10s/.*/pin 0\npin 0/' examples/first.script)
exit "$status"
