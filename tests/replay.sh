#!/usr/bin/env bash
# Whole scripts: what links took and what is noted, with the bytes cut at each place; which line is refused, and why; how long one may be.
source "$(dirname "$0")/lib/common.sh"
build

# expect STATUS TEXT WHAT: what `replay` answers to the script on standard input.
expect() { answers "$1" "$2" "$3" replay; }

# refuses LINE WHY: the script on standard input is refused at this line.
refuses() { expect 4 "script $1 $2"$'\n' "$2 at line $1"; }

lines() { printf '%s\n' "$@"; }

file() {
  lines 'config file' '|[http.routers.r]' '|rule = "PathPrefix(`/`)"' '|service = "s"' \
    '|[[http.services.s.loadBalancer.servers]]' '|url = "http://127.0.0.1:9000"'
}

request='GET / HTTP/1.1\r\nHost: a.test\r\n\r\n'
second='GET /b?c HTTP/1.1\r\nHost: b.test\r\nX-Mark: \\ \xc3\r\n\r\n'
forwarded='GET / HTTP/1.1\r\nHost: a.test\r\nX-Forwarded-For: 127.0.0.1\r\nX-Forwarded-Host: a.test\r\nX-Forwarded-Port: 80\r\nX-Forwarded-Proto: http\r\nX-Real-Ip: 127.0.0.1\r\nConnection: close\r\n\r\n'
reply='HTTP/1.1 200 OK\r\nContent-Length: 2\r\n\r\nok'
other='HTTP/1.1 203 Other words\r\nA: b\r\nContent-Length: 3\r\n\r\n\x00\r\n'
way='looks 0:1 picks 0:0-1:0 turns - backs 1'

# cut LINK TEXT PLACE: the text as two gifts of bytes, cut behind so many bytes; behind none: in one.
cut() {
  local pieces before after
  mapfile -t pieces < <(pieces_of "$2")
  before=$(printf '%s' "${pieces[@]:0:$3}")
  after=$(printf '%s' "${pieces[@]:$3}")
  lines ${before:+"bytes $1 $before"} ${after:+"bytes $1 $after"}
}
# A line for each byte of the text.
pieces_of() { grep -oE '\\x[0-9a-f]{2}|\\.|.' <<< "$1"; }
# each LINK TEXT: each byte as a gift of its own.
each() { pieces_of "$2" | sed "s/^/bytes $1 /"; }

# cuts WHAT BEFORE LINK TEXT AFTER WANTED: the text is given whole, cut at each place, and byte by byte; all else stays.
cuts() {
  local what=$1 before=$2 link=$3 text=$4 after=$5 wanted=$6 count place
  count=$(pieces_of "$text" | wc -l)
  for ((place = 0; place < count; place++)); do
    expect 0 "$wanted" "$what, cut at $place" < <(lines "$before"; cut "$link" "$text" "$place"; lines "$after")
  done
  expect 0 "$wanted" "$what, in single bytes" < <(lines "$before"; each "$link" "$text"; lines "$after")
}

# A request is passed on, and its reply.
passed() {
  local wanted
  wanted=$(lines 'published 1' "link 0 sent $reply" "link 1 to 127.0.0.1:9000 sent $forwarded" \
    "note 0 1 gen 1 router 0 status 200 Passed $way" 'note 0 end Client')$'\n'
  cuts 'a request' "$(file; lines publish 'arrive web 127.0.0.1')" 0 "$request" \
    "$(lines 'pin 0' 'look 0' 'draw 0' 'dial 0' 'took 1 all' "bytes 1 $reply" 'took 0 all' 'end 0')" "$wanted"
  cuts 'a reply' "$(file; lines publish 'arrive web 127.0.0.1' "bytes 0 $request" 'pin 0' 'look 0' 'draw 0' 'dial 0' 'took 1 all')" 1 "$reply" \
    "$(lines 'took 0 all' 'end 0')" "$wanted"
}

# No router takes a request, since there is none.
without_routers() {
  cuts 'a request without routers' 'arrive web 127.0.0.1' 0 "$request" "$(lines 'pin 0' 'took 0 all' 'end 0')" "$(lines 'published 0' \
    'link 0 sent HTTP/1.1 404 Not Found\r\nContent-Type: text/plain; charset=utf-8\r\nContent-Length: 19\r\n\r\n404 page not found\n' \
    'note 0 1 gen 0 router - status 404 NoRouter looks - picks - turns - backs -' 'note 0 end Client')"$'\n'
}

# The server's link fails in place of its reply.
failed() {
  cuts 'a request whose server fails' "$(file; lines publish 'arrive web 127.0.0.1')" 0 "$request" \
    "$(lines 'pin 0' 'look 0' 'draw 0' 'dial 0' 'took 1 all' 'fail 1' 'took 0 all' 'end 0')" "$(lines 'published 1' \
    'link 0 sent HTTP/1.1 502 Bad Gateway\r\nContent-Type: text/plain; charset=utf-8\r\nContent-Length: 16\r\n\r\n502 bad gateway\n' \
    "link 1 to 127.0.0.1:9000 sent $forwarded" "note 0 1 gen 1 router 0 status 502 BackFailed 1 $way" 'note 0 end Client')"$'\n'
}

# Two requests, both given before the first is pinned, are answered in their order.
two_requests() {
  local first=$'pin 0\nlook 0\ndraw 0\ndial 0\ntook 1 all' next=$'pin 0\nlook 0\ndraw 0\ndial 0\ntook 2 all'
  cuts 'two requests' "$(file; lines publish 'arrive web 127.0.0.1')" 0 "$request$second" \
    "$(lines "$first" "bytes 1 $reply" 'took 0 all' "$next" "bytes 2 $other" 'took 0 all' 'end 0')" "$(lines 'published 1' \
    "link 0 sent $reply$other" "link 1 to 127.0.0.1:9000 sent $forwarded" \
    'link 2 to 127.0.0.1:9000 sent GET /b?c HTTP/1.1\r\nHost: b.test\r\nX-Mark: \\ \xc3\r\nX-Forwarded-For: 127.0.0.1\r\nX-Forwarded-Host: b.test\r\nX-Forwarded-Port: 80\r\nX-Forwarded-Proto: http\r\nX-Real-Ip: 127.0.0.1\r\nConnection: close\r\n\r\n' \
    "note 0 1 gen 1 router 0 status 200 Passed $way" 'note 0 2 gen 1 router 0 status 203 Passed looks 0:1 picks 0:1-2:0 turns - backs 2' 'note 0 end Client')"$'\n'
}

# Where a script is refused: empty lines and the lines of a configuration count.
refusals() {
  local bad
  for bad in 'Pin 0' 'pin' 'pin ' 'pin  0' ' pin 0' 'pin 0 ' 'pin 00' 'pin -1' 'pin 4294967296' 'publish now' 'config' 'config consul' \
    'config File' 'arrive web' 'arrive web 127.0.0' 'arrive  127.0.0.1' 'took 0' 'took 0 al' 'took 0 01' 'mark 0 0' 'mark 0 0 on' 'tick' \
    'bytes 0' 'bytes 0 \' 'bytes 0 \a' 'bytes 0 \x0' 'bytes 0 \xAB' $'bytes 0 a\tb' $'stop\r' '|a = 1' '# text'; do
    refuses 4 Grammar < <(lines '' 'arrive web 127.0.0.1' '' "$bad" 'tick 1')
  done
  refuses 9 Grammar < <(file; lines publish '' 'bad')
  for bad in 'a = [' 'a = 1' 'http.routers.r.rule = 1' '[http.routers."a@b"]' $'[http.routers.r]\n|rule = "a"\n|Rule = "b"'; do
    refuses 2 Config < <(lines '' 'config file' "|$bad" 'bad')
  done
  for bad in 'config consul traefik' 'mark 0 0 up' 'mark 4294967295 0 down' 'tick 18446744073709551615' 'arrive web ::1'; do
    refuses 1 Later < <(lines "$bad" 'bad')
  done
  refuses 1 Later < <(lines 'config file' '|[http.middlewares.m.addPrefix]' '|prefix = "/a"' 'bad')
  refuses 7 Later < <(file; file)
  refuses 2 Later < <(lines 'config file' 'config file')
  for bad in 'pin 1' 'look 1' 'draw 1' 'dial 1' 'end 1' 'fail 1' 'bytes 1 a' 'took 1 all' 'took 1 0' 'pin 4294967295'; do
    refuses 2 NoSuchLink < <(lines 'arrive web 127.0.0.1' "$bad" 'bad')
  done
}

# What may not come in a state of a connection, or without one.
not_enabled() {
  local bad
  refuses 1 'NotEnabled publish Idle' < <(lines publish)
  refuses 2 'NotEnabled publish Idle' < <(lines 'config file' publish)
  refuses 8 'NotEnabled publish Idle' < <(file; lines publish publish)
  refuses 2 'NotEnabled stop Idle' < <(lines stop stop)
  refuses 2 'NotEnabled arrive Idle' < <(lines stop 'arrive web 127.0.0.1')
  # in LINE STATE KIND..: after the lines on standard input none of these may come for the client's link.
  in_state() {
    local line=$1 state=$2 kind text
    text=$(cat)
    for kind in "${@:3}"; do
      refuses "$line" "NotEnabled ${kind%% *} $state" < <(lines "$text" "${kind%% *} 0${kind#"${kind%% *}"}")
    done
  }
  in_state 2 Idle pin look draw dial 'took all' 'took 1' 'took 0' 'bytes ' < <(lines 'arrive web 127.0.0.1')
  in_state 3 Head pin look draw dial 'took all' < <(lines 'arrive web 127.0.0.1' 'bytes 0 G')
  in_state 4 Pin look draw dial 'took all' 'bytes a' end < <(lines 'arrive web 127.0.0.1' "bytes 0 $request" 'end 0')
  in_state 11 Look pin draw dial 'took all' < <(file; lines publish 'arrive web 127.0.0.1' "bytes 0 $request" 'pin 0')
  in_state 12 Walk pin look dial 'took all' < <(file; lines publish 'arrive web 127.0.0.1' "bytes 0 $request" 'pin 0' 'look 0')
  in_state 13 Dial pin look draw 'took all' < <(file; lines publish 'arrive web 127.0.0.1' "bytes 0 $request" 'pin 0' 'look 0' 'draw 0')
  in_state 14 Exchange pin look draw dial 'took all' < <(file; lines publish 'arrive web 127.0.0.1' "bytes 0 $request" 'pin 0' 'look 0' 'draw 0' 'dial 0')
  in_state 4 Reply pin look draw dial 'took 151' < <(lines 'arrive web 127.0.0.1' "bytes 0 $request" 'pin 0')
  in_state 3 Ended pin look draw dial 'took all' 'bytes a' end fail < <(lines 'arrive web 127.0.0.1' 'end 0')
  # What may be asked for a client's link alone.
  for bad in pin look draw dial; do
    refuses 14 "NotEnabled $bad Exchange" < <(file; lines publish 'arrive web 127.0.0.1' "bytes 0 $request" 'pin 0' 'look 0' 'draw 0' 'dial 0' "$bad 1")
  done
  refuses 14 'NotEnabled took Exchange' < <(file; lines publish 'arrive web 127.0.0.1' "bytes 0 $request" 'pin 0' 'look 0' 'draw 0' 'dial 0' 'took 1 184')
}

# A script of 4 MiB is read, and one byte more is too long. A client's buffer has room for 32,768 bytes.
limits() {
  local rest wanted
  wanted=$(lines 'published 0' 'link 0 sent ')$'\n'
  rest=$((4 * mib - $(lines 'arrive web 127.0.0.1' | wc -c)))
  expect 0 "$wanted" 'a script of 4 MiB' < <(bytes "$rest" '\n'; lines 'arrive web 127.0.0.1')
  expect 8 $'too long\n' 'a script of more than 4 MiB' < <(bytes $((rest + 1)) '\n'; lines 'arrive web 127.0.0.1')
  refuses $((4 * mib)) Grammar < <(bytes $((4 * mib - 1)) '\n'; printf '|')
  refuses 3 'NotEnabled took Pin' < <(lines 'arrive web 127.0.0.1'; printf 'bytes 0 '; bytes 32768 a; lines '' 'took 0 all')
  refuses 2 'NotEnabled bytes Idle' < <(lines 'arrive web 127.0.0.1'; printf 'bytes 0 '; bytes 32769 a)
  refuses 3 'NotEnabled bytes Pin' < <(lines 'arrive web 127.0.0.1'; printf 'bytes 0 '; bytes 32768 a; lines '' 'bytes 0 a')
}

passed
without_routers
failed
two_requests
refusals
not_enabled
limits
exit "$status"
