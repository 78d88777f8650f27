#!/usr/bin/env bash
# Files and heads at each limit and one past it, and files that are made to cost much: each gets its answer within 20 seconds.
# Where a router is disabled `route` shows no reason, so that `serve` is asked what it makes of the same file.
source "$(dirname "$0")/lib/common.sh"
needs python3
build

# expect STATUS LINE WHAT: what `route` answers to the head $room/head under the file on standard input.
expect() {
  cat > "$room/file.toml"
  answers "$1" "$2"$'\n' "$3" route "$room/file.toml" < "$room/head"
}

# judged STATE WHAT: what becomes of the router r in the file that `expect` was given last: `enabled`, or `disabled` and a reason.
judged() {
  served "$room/file.toml"
  grep -qE "^router [0-9]+ r@file priority -?[0-9]+ $1\$" "$room/served" ||
    fail "$2: '$(grep ' r@file ' "$room/served" | tail -c 200)', and '$1' is wanted"
}
# enabled COUNT WHAT: so many routers of that file are enabled.
enabled() {
  local got
  served "$room/file.toml"
  got=$(grep -cE '^router .* enabled$' "$room/served") || true
  [ "$got" = "$1" ] || fail "$2: $got routers are enabled, and $1 are wanted"
}

# many COUNT TEXT: the text so many times, each `@` in it the number in six digits.
many() {
  python3 -c 'import sys
for n in range(int(sys.argv[1])): sys.stdout.write(sys.argv[2].replace("@", f"{n:06}"))' "$1" "$2"
}
# filled BEFORE TEXT AFTER: as often as there is room for it in 1 MiB.
filled() {
  local one=${2//@/000000}
  printf '%s' "$1"
  many $(((mib - ${#1} - ${#3}) / ${#one})) "$2"
  printf '%s' "$3"
}
times() { printf "%$1s" '' | sed "s|.|$2|g"; }

server=$'[[http.services.s.loadBalancer.servers]]\nurl = "http://10.0.0.1"\n'
# router NAME RULE: a router whose rule stands in quotes that need no escapes.
router() { printf "[http.routers.%s]\nrule = '%s'\nservice = \"s\"\n" "$1" "$2"; }
first() { router r 'PathPrefix(`/`)'; printf '%s' "$server"; }
# under RULE: a file of one router with this rule.
under() { router r "$1"; printf '%s' "$server"; }

ask() { printf 'GET %s HTTP/1.1\r\nHost: %s\r\n%s\r\n' "$1" "${2:-a.test}" "${3:-}" > "$room/head"; }
found='forward r@file http://10.0.0.1:80'

at_limits_of_files() {
  ask / h001999.test
  local routers=$'[http.routers.r@]\nrule = "Host(`h@.test`)"\nservice = "s"\n'
  expect 0 'forward r001999@file http://10.0.0.1:80' '2,000 routers' < <(many 2000 "$routers"; printf '%s' "$server")
  expect 3 'config TooMany http.routers' '2,001 routers' < <(many 2001 "$routers"; printf '%s' "$server")
  local services=$'[[http.services.s@.loadBalancer.servers]]\nurl = "http://10.0.0.1"\n'
  expect 0 "$found" '500 services' < <(first; many 499 "$services")
  expect 3 'config TooMany http.services' '501 services' < <(first; many 500 "$services")
  local middlewares=$'[http.middlewares.m@.addPrefix]\nprefix = "/a"\n'
  expect 0 "$found" '500 middlewares' < <(first; many 500 "$middlewares")
  expect 3 'config TooMany http.middlewares' '501 middlewares' < <(first; many 501 "$middlewares")
  first > "$room/first"
  local rest=$((mib - $(wc -c < "$room/first")))
  expect 0 "$found" '1 MiB' < <(first; bytes "$rest" '#')
  expect 8 'too long' 'more than 1 MiB' < <(first; bytes $((rest + 1)) '#')
}

at_limits_of_values() {
  ask /
  local name=$(bytes 255 n)
  expect 0 "forward $name@file http://10.0.0.1:80" 'a name of 255 bytes' < <(router "$name" 'PathPrefix(`/`)'; printf '%s' "$server")
  expect 3 "config BadName http.routers.n$name" 'a name of 256 bytes' < <(router "n$name" 'PathPrefix(`/`)'; printf '%s' "$server")
  expect 0 "$found" 'the greatest weight' < <(first; echo 'weight = 2147483647')
  expect 3 'config Range http.services.s.loadBalancer.servers[0].weight' 'a greater weight' < <(first; echo 'weight = 2147483648')
  expect 0 "$found" 'the greatest priority' < <(router r 'PathPrefix(`/`)'; echo 'priority = 9223372036854774807'; printf '%s' "$server")
  expect 0 '404' 'a greater priority' < <(router r 'PathPrefix(`/`)'; echo 'priority = 9223372036854774808'; printf '%s' "$server")
  judged 'disabled Priority' 'a greater priority'
  local probe=$'[http.services.s.loadBalancer.healthCheck]\npath = "/"\n'
  expect 3 'config Later' 'a day' < <(first; printf '%s' "$probe"; echo 'interval = "23h60m"')
  expect 3 'config Range http.services.s.loadBalancer.healthCheck.interval' 'more than a day' < <(first; printf '%s' "$probe"; echo 'interval = "24h1ms"')
  expect 3 'config Range http.services.s.loadBalancer.healthCheck.timeout' 'no time' < <(first; printf '%s' "$probe"; echo 'timeout = "0s"')
}

at_limits_of_rules() {
  local path=/$(bytes 4087 a)
  ask "$path"
  expect 0 "$found" 'a rule of 4,096 bytes' < <(under "Path(\`$path\`)")
  ask "${path}a"
  expect 0 '404' 'a rule of 4,097 bytes' < <(under "Path(\`${path}a\`)")
  judged 'disabled Rule TooLong' 'a rule of 4,097 bytes'
  ask /
  expect 0 "$found" '32 parentheses' < <(under "$(times 32 '(')Path(\`/\`)$(times 32 ')')")
  expect 0 '404' '33 parentheses' < <(under "$(times 33 '(')Path(\`/\`)$(times 33 ')')")
  judged 'disabled Rule TooDeep' '33 parentheses'
  expect 0 "$found" '32 negations' < <(under "$(times 32 '!')Path(\`/\`)")
  expect 0 '404' '33 negations' < <(under "$(times 33 '!')Path(\`/other\`)")
  judged 'disabled Rule TooDeep' '33 negations'
  ask /n
  expect 0 "$found" 'a pattern of 512 bytes' < <(under "PathRegexp(\`^/nz*$(times 253 'z?')\$\`)")
  expect 0 '404' 'a pattern of 513 bytes' < <(under "PathRegexp(\`^/n+z*$(times 253 'z?')\$\`)")
  judged 'disabled Rule Value 11' 'a pattern of 513 bytes'
  local patterns=$'[http.routers.r@]\nrule = "PathRegexp(`^/n@$`)"\nservice = "s"\n'
  ask /n000255
  expect 0 'forward r000255@file http://10.0.0.1:80' '256 patterns' < <(many 256 "$patterns"; printf '%s' "$server")
  expect 0 'forward r000255@file http://10.0.0.1:80' 'the 256th of 257 patterns' < <(many 257 "$patterns"; printf '%s' "$server")
  ask /n000256
  expect 0 '404' 'the 257th pattern' < <(many 257 "$patterns"; printf '%s' "$server")
  enabled 256 '257 patterns'
  grep -q '^router 256 r000256@file priority [0-9]* disabled TooManyPatterns$' "$room/served" || fail 'the 257th pattern is disabled for another reason'
}

at_limits_of_heads() {
  ask / a.test "X: $(bytes 16347 x)"$'\r\n'
  expect 0 "$found" 'a head of 16,384 bytes' < <(first)
  ask / a.test "X: $(bytes 16348 x)"$'\r\n'
  expect 8 'too long' 'a head of 16,385 bytes' < <(first)
  ask / a.test "$(many 99 $'X: @\r\n'; printf .)"
  sed -i 's/^\.\r$/\r/' "$room/head"
  expect 0 "$found" '100 lines' < <(first)
  ask / a.test "$(many 100 $'X: @\r\n'; printf .)"
  sed -i 's/^\.\r$/\r/' "$room/head"
  expect 4 'request TooMany' '101 lines' < <(first)
}

# Deep, long and repeated.
costly_texts() {
  ask /
  expect 3 'config NotToml' 'a table nested deeply' < <(filled '[a' '.a' $']\n')
  expect 3 'config NotToml' 'a key nested deeply' < <(filled 'a' '.a' $' = 1\n')
  expect 3 'config NotToml' 'lists nested deeply' < <(filled 'a = ' '[' '')
  expect 3 'config NotToml' 'tables in values nested deeply' < <(filled 'a = ' '{a=' '')
  expect 3 'config NotToml' 'one key very often' < <(filled '' $'a=1\n' '')
  expect 3 'config NotToml' 'one table very often' < <(filled '' $'[a]\n' '')
  expect 3 'config Unknown a' 'one list very often' < <(filled '' $'[[a]]\n' '')
  local long=$(bytes 1000000 k)
  expect 3 "config Unknown $long" 'a long key' < <(echo "$long = 1")
  expect 3 "config BadName http.routers.$long" 'a long name' < <(echo "[http.routers.$long]")
  expect 3 "config Unknown http.routers.r.$long" 'a long option' < <(echo "[http.routers.r]"; echo "$long = 1")
}

# As many entries as fit.
costly_tables() {
  ask /
  expect 3 'config Unknown k000000' 'keys of the document' < <(filled '' $'k@=1\n' '')
  expect 3 'config TooMany http.routers' 'routers' < <(filled $'[http.routers]\n' $'k@={}\n' '')
  expect 3 'config Unknown http.routers.r.k000000' 'options of a router' < <(filled $'[http.routers.r]\n' $'k@=1\n' '')
  expect 0 '404' 'options of tls' < <(filled $'[http.routers.r.tls]\n' $'k@=1\n' '')
  judged 'disabled Tls' 'options of tls'
  expect 0 '404' 'tables that are not read' < <(filled '' $'tcp.k@.a=1\n' '')
  expect 3 'config Later' 'servers' < <(filled $'[http.services.s.loadBalancer]\nservers=[' '{url="u"},' $']\n')
  expect 3 'config Later' 'mirrors' < <(filled $'[http.services.s.mirroring]\nservice="s"\nmirrors=[' '{name="u"},' $']\n')
  expect 0 '404' 'prefixes' < <(filled $'[http.middlewares.m.stripPrefix]\nprefixes=[' '"/@",' $']\n')
  expect 0 '404' 'field lines' < <(filled $'[http.middlewares.m.headers.customRequestHeaders]\n' $'k@=""\n' '')
  expect 0 '404' 'options that are not supported' < <(filled $'[http.middlewares.m.headers]\n' $'k@=1\n' '')
}

# Rules that ask much of each request. All of them are asked: the request goes to the router that is asked last, by the pair
# at the end of its query, by the end of its path.
costly_rules() {
  local calls
  calls=$(many 1950 "$(router r@ "$(many 25 'Query(`a@`)||')Query(\`b@\`)")"$'\n'; printf '%s' "$server")
  ask "/?$(many 1000 'q@=@&')b001949"
  expect 0 'forward r001949@file http://10.0.0.1:80' '50,700 calls that ask a long query' <<<"$calls"
  ask "/?$(many 1000 'q@=@&')b001950"
  expect 0 '404' '50,700 calls that are all untrue' <<<"$calls"
  ask "/$(bytes 8000 a)c"
  expect 0 'forward r000255@file http://10.0.0.1:80' '256 large patterns' < <(
    many 255 "$(router r@ 'PathRegexp(`(\pL|\pN|\w){15}b@`)')"$'\n'
    router r000255 'PathRegexp(`(\pL|\pN|\w){15}c`)'
    printf '%s' "$server")
  enabled 256 '256 large patterns'
  # One that is found in every path, if it is built.
  expect 0 '404' 'a pattern that is too big' < <(under 'PathRegexp(`/|((a{1000}){1000}){1000}`)')
  judged 'disabled Compile TooBig 0' 'a pattern that is too big'
}

at_limits_of_files
at_limits_of_values
at_limits_of_rules
at_limits_of_heads
costly_texts
costly_tables
costly_rules
exit "$status"
