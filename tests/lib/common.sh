# shellcheck shell=bash disable=SC2034
# What the scripts of tests/ and bench/ share; each begins with it. They run at the top of the repository, and end with `status`.
# PROXY names another program to be asked in place of the built one.
set -euo pipefail
cd "$(dirname "${BASH_SOURCE[0]}")/../.."
export LC_ALL=C
mib=1048576
script=$(basename "$0" .sh)
status=0
proxy=$(readlink -m "${PROXY:-crates/proxy_main/out/proxy_main}")

# A folder of the script's own, and the processes that it has started and not ended.
room=$(mktemp -d)
declare -A started=()
leave() {
  local pid
  for pid in "${!started[@]}"; do
    kill "$pid" 2>/dev/null || true
  done
  wait
  rm -rf "$room"
}
trap leave EXIT

fail() {
  echo "$script: $1"
  status=1
}

# needs TOOL..: the script is left out where one of these isn't there.
needs() {
  local tool
  for tool; do
    if ! command -v "$tool" >/dev/null; then
      echo "$script: left out, since $tool isn't there"
      exit 0
    fi
  done
}

# Builds the program where it isn't built, and goes no further where it can't be. Without words it tells how it is called.
build() {
  local ended=0
  if [ -z "${PROXY:-}" ]; then
    ./proxy >/dev/null || ended=$?
    [ "$ended" = 2 ] || exit 1
  fi
}

# answers STATUS TEXT WHAT WORD..: what the program answers to these words and to standard input, byte for byte, within 20 seconds.
answers() {
  local wanted_status=$1 wanted=$2 what=$3 got_status=0
  shift 3
  timeout 20 "$proxy" "$@" >"$room/answer" || got_status=$?
  printf '%s' "$wanted" >"$room/wanted"
  if ! cmp -s "$room/answer" "$room/wanted" || [ "$got_status" != "$wanted_status" ]; then
    fail "$what: '$(head -c 300 "$room/answer")' with $got_status, and '${wanted:0:300}' with $wanted_status is wanted"
  fi
}

# bytes COUNT BYTE: this byte so many times.
bytes() { head -c "$1" /dev/zero | tr '\0' "$2"; }

# start PORT WORD..: runs the words in the background, with what they write in $room/PORT.log, waits until something listens
# on the port, and leaves their process in `pid`. A program that couldn't have the port (status 11) is tried again: another
# process may have held it for a moment.
start() {
  local at=$1 again ended=0
  shift
  for again in 1 2 3 4 5; do
    "$@" >"$room/$at.log" 2>&1 &
    pid=$!
    started[$pid]=
    for _ in $(seq 300); do
      if (exec 3<>"/dev/tcp/127.0.0.1/$at") 2>/dev/null; then
        return
      fi
      kill -0 "$pid" 2>/dev/null || break
      sleep 0.1
    done
    kill "$pid" 2>/dev/null || true
    ended=0
    ended "$pid" || ended=$?
    [ "$ended" = 11 ] || break
    sleep "$again"
  done
  echo "$script: '$*' doesn't listen on port $at, and ended with $ended" >&2
  tail -n 5 "$room/$at.log" >&2
  exit 1
}

# free_port: a free port of the loopback, of those that the system gives to no connection by itself.
free_port() {
  python3 -c 'import random, socket, sys
for port in random.sample(range(10000, 32000), 1000):
    with socket.socket() as held:
        try:
            held.bind(("127.0.0.1", port))
        except OSError:
            continue
    sys.exit(print(port))
sys.exit("no port is free")'
}

# served FILE: leaves what `serve` writes of this file in $room/served. A bad request, which is noted, ends it.
served() {
  local at
  at=$(free_port)
  start "$at" "$proxy" serve "web=127.0.0.1:$at" --file "$1" --requests 1
  timeout 20 bash -c "exec 3<>/dev/tcp/127.0.0.1/$at; printf 'garbage\r\n\r\n' >&3; cat <&3" >/dev/null || fail "$1 isn't served"
  ended "$pid" || fail "'serve' ended with $? over $1"
  cp "$room/$at.log" "$room/served"
}

# ended PID: waits until a process that was started has ended, and ends with its status.
ended() {
  unset "started[$1]"
  wait "$1"
}

# stop PID: ends a process that was started.
stop() {
  kill "$1" 2>/dev/null || true
  ended "$1" 2>/dev/null || true
}
