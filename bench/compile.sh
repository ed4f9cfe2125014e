#!/usr/bin/env bash
# Times `compile` on scripts with many joins, on components that hold each other many deep, and on large components and instances; it is no test. The
# program is built first (./calvin).
set -u
top="$(cd "$(dirname "$0")/.." && pwd)" || exit 2
folder=$(mktemp -d) || exit 2
trap 'rm -rf "$folder"' EXIT
# A component with 16 inports, each joined to an outport, and so many instances of it one behind the other: 32 joins an instance.
lanes() {
    local count=$1 lane number
    printf 'component Lanes() a0'
    for lane in {1..15}; do printf ', a%d' "$lane"; done
    printf ' -> b0'
    for lane in {1..15}; do printf ', b%d' "$lane"; done
    printf ' {\n'
    for lane in {0..15}; do printf '  .a%d > .b%d\n' "$lane" "$lane"; done
    printf '}\nsrc : std.Counter()\n'
    for ((number = 0; number < count; number++)); do printf 'l%d : Lanes()\n' "$number"; done
    for lane in {0..15}; do
        printf 'p%d : io.Print()\nsrc.integer > l0.a%d\n' "$lane" "$lane"
        for ((number = 1; number < count; number++)); do printf 'l%d.b%d > l%d.a%d\n' $((number - 1)) "$lane" "$number" "$lane"; done
        printf 'l%d.b%d > p%d.token\n' $((count - 1)) "$lane" "$lane"
    done
}
# Components that hold each other so many deep.
deep() {
    local depth=$1 level
    printf 'component C0() in -> out {\n  i : std.Identity()\n  .in > i.token\n  i.token > .out\n}\n'
    for ((level = 1; level < depth; level++)); do
        printf 'component C%d() in -> out {\n  c : C%d()\n  .in > c.in\n  c.out > .out\n}\n' "$level" $((level - 1))
    done
    printf 'src : std.Counter()\nc : C%d()\nsnk : io.Print()\nsrc.integer > c.in\nc.out > snk.token\n' $((depth - 1))
}
# As many components and instances as a script may have, one behind the other, each with eight arguments of so many letters.
wide() {
    local letters number arguments
    letters=$(head -c "$1" /dev/zero | tr '\0' x)
    printf -v arguments ', %s="'"$letters"'"' a b c d e f g h
    for ((number = 0; number < 127; number++)); do
        printf 'component W%d(a, b, c, d, e, f, g, h) in -> out {\n  i : text.Prefix(prefix=a)\n  .in > i.text\n  i.text > .out\n}\n' "$number"
        printf 'w%d : W%d(%s)\n' "$number" "$number" "${arguments:2}"
    done
    printf 'src : std.Constant(data="x")\nsnk : io.Print()\nsrc.token > w0.in\n'
    for ((number = 1; number < 127; number++)); do printf 'w%d.out > w%d.in\n' $((number - 1)) "$number"; done
    printf 'w126.out > snk.token\n'
}
for count in 31 63 126; do lanes "$count" >"$folder/lanes$count"; done
for depth in 4 8 16; do deep "$depth" >"$folder/deep$depth"; done
for letters in 240 500 1000; do wide "$letters" >"$folder/wide$letters"; done
timed() {
    local from to
    from=$(date +%s%N)
    "$top/calvin" compile <"$2" >"$folder/out"
    to=$(date +%s%N)
    printf '%-40s %6d ms  %8d bytes of text\n' "$1" $(((to - from) / 1000000)) "$(wc -c <"$folder/out")"
}
"$top/calvin" compile <"$top/examples/constant.calvin" >/dev/null || exit 1
for count in 31 63 126; do timed "$((count * 32 + 16)) joins" "$folder/lanes$count"; done
for depth in 4 8 16; do timed "components $depth deep" "$folder/deep$depth"; done
for letters in 240 500 1000; do timed "127 instances, $(($(wc -c <"$folder/wide$letters") / 1024)) KiB" "$folder/wide$letters"; done
