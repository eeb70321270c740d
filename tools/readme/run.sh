#!/usr/bin/env bash
# Runs every command of README.md, in order, in a clean clone of this repository, and compares what it prints with README.md.
# usage: run.sh [--gate] [--reuse] [--keep]
#   --gate     also the commands that are marked as long (the gate itself)
#   --reuse    the clone gets a copy of what checks kept here (crates/*/out), so that proved crates are not proved again
#   --keep     the clone stays in target/readme/clone; what each command printed is in target/readme/NUMBER.out in any case
#
# The blocks of README.md:
#   ```sh           commands, run by bash in the clone; directly behind them stands a block ```text with what they print
#   ```sh gate      the same, run with --gate alone
#   ```LANG FILE    a file that is written to the clone before the next command
# In what is printed a first line `..` stands for any lines, and a word N for a number.
# The commands see the kit's rt with its python3, gcc, cargo and rustc and the usual tools of a POSIX system, and no other program.
# The clone is made of the last commit; what is not committed is not in it.
set -euo pipefail
root=$(cd "$(dirname "${BASH_SOURCE[0]}")/../.." && pwd)
room=$root/target/readme
clone=$room/clone
gate='' reuse='' keep=''
for word in "$@"; do
  case $word in
  --gate) gate=1 ;;
  --reuse) reuse=1 ;;
  --keep) keep=1 ;;
  *)
    sed -n '2,/^set /s/^# \{0,1\}//p' "${BASH_SOURCE[0]}"
    exit 2
    ;;
  esac
done

rm -rf "$room"
mkdir -p "$room/bin"
git clone --quiet "$root" "$clone"
if ! git -C "$root" diff --quiet HEAD -- README.md; then
  echo "README.md has changes that are not committed; the clone has the committed one" >&2
fi
if [ -n "$reuse" ]; then
  for kept in "$root"/crates/*/out; do
    crate=$(basename "$(dirname "$kept")")
    if [ -d "$kept" ] && [ -d "$clone/crates/$crate" ]; then cp -a "$kept" "$clone/crates/$crate/"; fi
  done
fi

# The programs that commands may use.
tools='rt gcc cc ld as ar cargo rustc git bash sh awk basename cat chmod chown cmp cp cut date diff dirname echo env expr find
false getconf grep head id ln ls mkdir mktemp mv nproc od paste printf ps pwd readlink rm rmdir sed seq setpriv sha256sum sleep
sort stat tail tee test touch tr true uname uniq wc xargs'
for tool in $tools; do
  if at=$(type -P "$tool"); then ln -s "$at" "$room/bin/$tool"; fi
done
ln -s "$(python3 -c 'import sys; print(sys.executable)')" "$room/bin/python3"

# README.md cut into blocks: target/readme/NUMBER.info has the words behind the marks, NUMBER.block the lines.
awk -v room="$room" '
  /^```/ && !inside { inside = 1; file = sprintf("%s/%02d", room, ++count); print substr($0, 4) > (file ".info"); printf "" > (file ".block"); next }
  /^```$/ && inside { inside = 0; close(file ".info"); close(file ".block"); next }
  inside { print > (file ".block"); next }
  /^(    |\t)/ { print "README.md, line " NR ": a command outside of the marked blocks?" > "/dev/stderr"; bad = 1 }
  END { if (inside) { print "README.md: a block does not end" > "/dev/stderr"; bad = 1 } exit bad }
' "$clone/README.md"

# Is what was printed ($2) what README.md has ($1)?
agrees() {
  awk '
    NR == FNR { wanted[++w] = $0; next }
    { printed[++p] = $0 }
    function same(a, b,    x, y, i, n) {
      if (a == b) return 1
      n = split(a, x, " ")
      if (n != split(b, y, " ")) return 0
      for (i = 1; i <= n; i++) if (x[i] != y[i] && !(x[i] == "N" && y[i] ~ /^[0-9]+$/)) return 0
      return 1
    }
    END {
      from = 1
      if (w && wanted[1] == "..") from = 2
      lines = w - from + 1
      if (from == 1 ? p != lines : p < lines) exit 1
      for (i = 1; i <= lines; i++) if (!same(wanted[from + i - 1], printed[p - lines + i])) exit 1
    }' "$1" "$2"
}

# Where cargo is told where it stands, and how many crates are proved at a time.
passed=()
for word in RT_JOBS CARGO_HOME RUSTUP_HOME; do
  if [ -n "${!word:-}" ]; then passed+=("$word=${!word}"); fi
done

ran=0 differ=0 left=0
for info in "$room"/[0-9][0-9].info; do
  block=${info%.info}.block
  number=$(basename "${info%.info}")
  next=$room/$(printf '%02d' $((10#$number + 1)))
  read -r kind more <"$info" || true
  case $kind in
  sh)
    if [ "$(cat "$next.info" 2>/dev/null)" != text ]; then
      echo "DIFFERS: no block of what is printed behind: $(head -1 "$block")"
      differ=$((differ + 1))
      continue
    fi
    if [ "$more" = gate ] && [ -z "$gate" ]; then
      echo "left out, --gate runs it: $(head -1 "$block")"
      left=$((left + 1))
      continue
    fi
    began=$SECONDS status=0
    (
      cd "$clone"
      exec env -i HOME="$HOME" PATH="$room/bin" LANG=C.UTF-8 TMPDIR="${TMPDIR:-/tmp}" "${passed[@]}" bash -euo pipefail "$block"
    ) >"$room/$number.out" 2>&1 </dev/null || status=$?
    ran=$((ran + 1))
    if [ "$status" = 0 ] && agrees "$next.block" "$room/$number.out"; then
      echo "as README.md has it ($((SECONDS - began)) s): $(head -1 "$block")"
    else
      differ=$((differ + 1))
      echo "DIFFERS (status $status, $((SECONDS - began)) s): $(head -1 "$block")"
      echo "  README.md has:" && sed 's/^/    /' "$next.block"
      echo "  printed was (target/readme/$number.out, its end):" && tail -20 "$room/$number.out" | sed 's/^/    /'
    fi
    ;;
  text) ;;
  '')
    echo "DIFFERS: a block without a mark: $(head -1 "$block")"
    differ=$((differ + 1))
    ;;
  *)
    if [ -n "$more" ]; then
      mkdir -p "$clone/$(dirname "$more")"
      cp "$block" "$clone/$more"
    fi
    ;;
  esac
done
if [ -z "$keep" ]; then rm -rf "$clone"; fi
echo "README.md: $ran commands run, $differ differ, $left left out"
[ "$differ" = 0 ]
