#!/usr/bin/env bash
# Times runs over several nodes beside the same runs on one node, and prints the figures; it is no test. The program is built first (./calvin). Actor number a of a script
# goes to node a mod N + 1, so four chains whose actors are declared in turn lie on a node each, and one chain over four nodes sends every token three times.
set -u
top="$(cd "$(dirname "$0")/.." && pwd)" || exit 2
folder=$(mktemp -d) || exit 2
trap 'rm -rf "$folder"' EXIT
# Four chains of so many identities between a source and a sieve that lets one token of a thousand to a print.
chains() {
    local length=$1 chain stage
    for chain in 1 2 3 4; do printf 'src%d : std.Constant(data=7, n=-1)\n' "$chain"; done
    for ((stage = 0; stage < length; stage++)); do
        for chain in 1 2 3 4; do printf 'mid%d_%d : std.Identity()\n' "$stage" "$chain"; done
    done
    for chain in 1 2 3 4; do printf 'pick%d : flow.Every(n=1000)\n' "$chain"; done
    for chain in 1 2 3 4; do printf 'snk%d : io.Print()\n' "$chain"; done
    for chain in 1 2 3 4; do
        printf 'src%d.token > mid0_%d.token\n' "$chain" "$chain"
        for ((stage = 1; stage < length; stage++)); do printf 'mid%d_%d.token > mid%d_%d.token\n' $((stage - 1)) "$chain" "$stage" "$chain"; done
        printf 'mid%d_%d.token > pick%d.token\npick%d.token > snk%d.token\n' $((length - 1)) "$chain" "$chain" "$chain" "$chain"
    done
}
chains 8 >"$folder/four"
# One chain of four actors.
printf 'src : std.Constant(data=7, n=-1)\na : std.Identity()\nb : std.Identity()\nsnk : io.Print()\nsrc.token > a.token\na.token > b.token\nb.token > snk.token\n' >"$folder/one"
"$top/calvin" run <"$top/examples/constant.calvin" >/dev/null || exit 1
# The least of five times, in nanoseconds, and the most memory, in kilobytes.
least() {
    local script=$1 best=1000000000000 from to
    shift
    for _ in 1 2 3 4 5; do
        from=$(date +%s%N)
        "$top/calvin" run "$@" <"$script" >"$folder/out"
        to=$(date +%s%N)
        best=$((to - from < best ? to - from : best))
    done
    echo "$best"
}
each() {
    local name=$1 script=$2 few many
    shift 2
    few=$(least "$script" --firings 10000 "$@")
    many=$(least "$script" --firings 100000 "$@")
    printf '%-40s %6d ns a firing\n' "$name" $(((many - few) / 90000))
}
each "four chains on one node" "$folder/four"
each "four chains on four nodes" "$folder/four" --nodes 4
each "one chain on one node" "$folder/one"
each "one chain over four nodes" "$folder/one" --nodes 4
for firings in 25000 50000 100000; do
    printf '%-40s %6d ms\n' "one chain over four nodes, $firings firings" $(($(least "$folder/one" --firings "$firings" --nodes 4) / 1000000))
done
