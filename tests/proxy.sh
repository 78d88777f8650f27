#!/usr/bin/env bash
# `./proxy` over a stand-in for `rt`, in a copy of the repository: it proves each crate once and after those that it stands
# on, hands on words and standard input, names what fails, goes on where it was, and one call waits for another.
source "$(dirname "$0")/lib/common.sh"
mkdir -p "$room/bin" "$room/tree/crates"
cat >"$room/bin/rt" <<'STUB'
#!/usr/bin/env bash
# `rt lib` and `rt run`: a crate is built where all that it stands on is.
crate=$(basename "$PWD")
line=$(grep "^$crate:" ../../crates.txt)
for on in ${line#*:}; do
  if grep -q "^$on:" ../../crates.txt && [ ! -e "../$on/out/rlib/stamp" ]; then
    echo "$on isn't built"
    exit 1
  fi
done
[ ! -e out/rlib/stamp ] || exit 0
echo "$crate" >>"$SEEN"
sleep "${PAUSE:-0}"
[ "$crate" != "${FAILS:-}" ] || { echo "fn bad: not proved"; exit 1; }
mkdir -p out/rlib
if [ "$1" = run ]; then
  printf '#!/usr/bin/env bash\nprintf "<%%s>" "$@"\ncat\nexit 3\n' >"out/$crate"
  chmod +x "out/$crate"
  exit 2
fi
touch out/rlib/stamp
STUB
chmod +x "$room/bin/rt"
for crate in $(sed -e 's/#.*//' -e 's/:.*//' crates.txt); do
  mkdir -p "$room/tree/crates/$crate/src"
  echo '//! A crate.' >"$room/tree/crates/$crate/src/lib.rt"
done
cp crates.txt proxy "$room/tree"
export PATH=$room/bin:$PATH SEEN=$room/seen
: >"$SEEN"
needed=$(python3 - <<'PYTHON'
lines = dict(line.split("#")[0].split(":") for line in open("crates.txt") if ":" in line.split("#")[0])
found, left = set(), ["proxy_main"]
while left:
    crate = left.pop()
    if crate in lines and crate not in found:
        found.add(crate)
        left += lines[crate].split()
print(len(found))
PYTHON
)

# call WORD..: what ./proxy writes to these words, and its status, in $room/said and $room/told.
call() { local ended=0; "$room/tree/proxy" "$@" >"$room/said" 2>"$room/told" || ended=$?; echo "$ended" >>"$room/said"; }
# saw COUNT WHAT: so many crates were proved since the last question.
saw() {
  [ "$(wc -l <"$SEEN")" = "$1" ] && [ -z "$(sort "$SEEN" | uniq -d)" ] || fail "$2: $(wc -l <"$SEEN") crates were proved, and $1 are wanted: $(tr '\n' ' ' <"$SEEN")"
  : >"$SEEN"
}
said() { [ "$(cat "$room/said")" = "$1" ] || fail "$2: it wrote '$(cat "$room/said")', and '$1' is wanted"; }

# A crate that fails is named with the log, and nothing runs.
FAILS=dyn_config call route
said 1 'a failure'
grep -q "the crate dyn_config could not be proved.*$room/tree/out/proxy.log" "$room/told" || fail "a failure: it told '$(cat "$room/told")'"
grep -q '^dyn_config: fn bad: not proved$' "$room/tree/out/proxy.log" || fail 'a failure: the log lacks its lines'
had=$(ls -d "$room"/tree/crates/*/out/rlib/stamp | wc -l)
: >"$SEEN"

# Then only what is left is proved, once each; words and input come through.
call 'a  b' '' '*' <<<'input'
said $'<a  b><><*>input\n3' 'the words'
saw $((needed - had)) 'going on'
tail -n 1 "$room/told" | grep -q "proved $needed of $needed crates" || fail "going on: it told '$(cat "$room/told")'"

# What is built is run at once, and built again where a source is younger.
call x </dev/null
said '<x>3' 'a built program'
[ ! -s "$room/told" ] || fail "a built program: it told '$(cat "$room/told")'"
saw 0 'a built program'
touch -d '+1 second' "$room/tree/crates/desk/src/lib.rt"
call x </dev/null
said '<x>3' 'a younger source'

# Ended by a signal, it leaves no process, and goes on where it was. A second call waits.
rm -rf "$room"/tree/crates/*/out
touch "$room/tree/crates/desk/src/lib.rt"
: >"$SEEN"
PAUSE=0.2 "$room/tree/proxy" x </dev/null >/dev/null 2>&1 &
pid=$!
sleep 3
kill "$pid"
ended=0
wait "$pid" || ended=$?
[ "$ended" = 143 ] || fail "a signal: it ended with $ended"
[ -z "$(ls "$room/tree/out/rooms" | grep -v link)" ] || fail "a signal: rooms are left"
had=$(ls -d "$room"/tree/crates/*/out/rlib/stamp | wc -l)
[ "$had" -gt 0 ] || fail 'a signal: nothing was kept'
: >"$SEEN"
"$room/tree/proxy" first </dev/null >"$room/first" 2>/dev/null &
pid=$!
sleep 0.5
call second </dev/null
said '<second>3' 'a second call'
grep -q 'another call builds the program' "$room/told" || fail "a second call: it told '$(cat "$room/told")'"
wait "$pid" || true
[ "$(cat "$room/first")" = '<first>' ] || fail "a first call: it wrote '$(cat "$room/first")'"
saw $((needed - had)) 'after a signal'
exit "$status"
