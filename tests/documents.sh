#!/usr/bin/env bash
# The documents name each crate, and what they name is there.
source "$(dirname "$0")/lib/common.sh"
for crate in $(sed -e 's/#.*//' -e 's/:.*//' crates.txt); do
  for document in README.md docs/ARCHITECTURE.md; do
    if ! grep -q "\`$crate\`" "$document"; then
      fail "$document doesn't name the crate $crate"
    fi
  done
done
for file in $(grep -ohE '\b(docs|examples|tests)/[A-Za-z_.-]+\.(md|toml|request|sh)\b' README.md docs/*.md | sort -u); do
  if ! [ -e "$file" ]; then
    fail "$file is named and isn't there"
  fi
done
exit "$status"
