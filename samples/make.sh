#!/bin/sh
# Makes the sample disk: samples/make.sh IMAGE
#
# IMAGE must not be there yet. The tool is `varnucht`, or what the variable VARNUCHT names. All bodies are made here, always
# the same, so the disk is always the same: sample.mgt beside this script. What `list`, `map` and `report` print of it is in
# list.txt, map.txt and report.txt.
set -eu
image=$1
varnucht=${VARNUCHT:-varnucht}
bodies=$(mktemp -d)
trap 'rm -rf "$bodies"' EXIT

# The 256 bytes 0 to 255, and then 64 times those.
byte=0
while [ "$byte" -lt 256 ]; do
  printf "\\$(printf %03o "$byte")"
  byte=$((byte + 1))
done > "$bodies/bytes"
times=0
while [ "$times" -lt 64 ]; do
  cat "$bodies/bytes"
  times=$((times + 1))
done > "$bodies/long"

# save NAME LENGTH OPTION...: saves the first LENGTH of those bytes.
save() {
  name=$1
  length=$2
  shift 2
  head -c "$length" "$bodies/long" | "$varnucht" save "$image" "$name" - "$@"
}

# A screen of mode 1: stripes of pixels, then black on white.
screen() {
  printf '%6144s' '' | tr ' ' 'U'
  printf '%768s' '' | tr ' ' '8'
}

"$varnucht" blank "$image"

# A BASIC program that runs from line 10 when it is loaded.
save AUTO 300 --kind basic --page 0 --offset 40139 --exec 000a00
save TEMP 2000
screen | "$varnucht" save "$image" TITLE - --kind screen --page 14 --info 00
save SCORES 120 --kind numeric-array
save PLAYERS 480 --kind string-array

# TUNES takes the slot and the four sectors of TEMP, and goes on behind the others. It runs from its first byte.
"$varnucht" erase "$image" TEMP
save TUNES 10000 --page 1 --offset 32768 --exec 010080

save SECRET 1000
"$varnucht" hide "$image" SECRET
save MASTER 1500
"$varnucht" protect "$image" MASTER

# An empty body, the longest body that one sector takes, and the shortest that takes two.
save EMPTY 0
save FULL 501
save OVER 502

# A name with a space, and one with a backslash, which is typed twice.
save 'MY NOTES' 700
save 'BACK\\SLASH' 64

# An erased file, with others behind it: its slot and its sectors are free.
save DRAFT 5000
save 'LAST ONE' 4000
"$varnucht" rename "$image" 'LAST ONE' FINAL
"$varnucht" erase "$image" DRAFT
