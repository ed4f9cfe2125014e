#!/usr/bin/env bash
# Times the program on long runs and large sources, and prints the figures; it is no test. The program is built first (./calvin). Where Erlang is
# installed (Debian: erlang-base), the chain runs as Erlang processes too, one an actor, with at most four tokens between two of them.
set -u
top="$(cd "$(dirname "$0")/.." && pwd)" || exit 2
folder=$(mktemp -d) || exit 2
trap 'rm -rf "$folder"' EXIT
printf 'src : std.Constant(data=7, n=-1)\nmid : std.Identity()\nsnk : io.Print()\nsrc.token > mid.token\nmid.token > snk.token\n' >"$folder/chain"
# Fourteen kinds; each token that the counter writes goes through most of them.
cat >"$folder/kinds" <<'END'
src : std.Counter()
add : math.Add()
mod : math.Modulo()
low : math.Compare(op="<")
not : logic.Not()
sel : flow.Select()
bat : flow.Batch(n=3)
unb : flow.Unbatch()
chg : flow.Change()
sum : std.Sum()
txt : json.Text()
len : text.Length()
out : io.Print()
src.integer > add.a, sel.data
3 > add.b
add.result > mod.a
7 > mod.b
mod.result > low.a
4 > low.b
low.result > not.a
not.result > sel.select
sel.case_true > bat.token
sel.case_false > chg.token
bat.list > unb.list
unb.token > sum.integer
sum.integer > txt.token
txt.text > len.text
len.integer > out.token
chg.token > voidport
END
# A chain of so many actors between a source and a print.
longer() {
    local count=$1 number
    printf 'src : std.Constant(data=7, n=-1)\na0 : std.Identity()\nsrc.token > a0.token\n'
    for ((number = 1; number < count; number++)); do printf 'a%d : std.Identity()\na%d.token > a%d.token\n' "$number" $((number - 1)) "$number"; done
    printf 'snk : io.Print()\na%d.token > snk.token\n' $((count - 1))
}
longer 254 >"$folder/longer"
# The same chain of three in Erlang: a producer has so many credits, and gets one back for each token that is taken.
cat >"$folder/chain.erl" <<'END'
-module(chain).
-export([main/1]).

source(0, _To, _Credits) -> ok;
source(Left, To, 0) -> receive credit -> source(Left, To, 1) end;
source(Left, To, Credits) -> To ! {token, self(), 7}, source(Left - 1, To, Credits - 1).

middle(To, 0) -> receive credit -> middle(To, 1) end;
middle(To, Credits) ->
    receive
        credit -> middle(To, Credits + 1);
        {token, From, Token} -> From ! credit, To ! {token, self(), Token}, middle(To, Credits - 1)
    end.

sink(0, Done) -> Done ! done;
sink(Left, Done) -> receive {token, From, _Token} -> From ! credit, sink(Left - 1, Done) end.

main([Words]) ->
    Tokens = list_to_integer(atom_to_list(Words)),
    Self = self(),
    From = erlang:monotonic_time(nanosecond),
    Sink = spawn(fun() -> sink(Tokens, Self) end),
    Middle = spawn(fun() -> middle(Sink, 4) end),
    spawn(fun() -> source(Tokens, Middle, 4) end),
    receive done -> ok end,
    To = erlang:monotonic_time(nanosecond),
    io:format("~w~n", [(To - From) div (3 * Tokens)]),
    halt().
END
head -c 1048576 /dev/zero | tr '\0' ' ' >"$folder/blanks"
# Scripts of a size in bytes, by a statement that is repeated; the words of a script are read and parsed before it is found to mean no network.
repeated() {
    yes "$1" | head -c "$2" | sed '$d'
}
targets() {
    printf 'a.b > c.d'
    yes ', c.d' | tr -d '\n' | head -c "$(($1 / 5 * 5))"
}
for kib in 256 512 1024; do
    repeated 'a.b > c.d' $((kib * 1024)) >"$folder/statements$kib"
    targets $((kib * 1024 - 16)) >"$folder/targets$kib"
    repeated '/* a comment */ // another' $((kib * 1024)) >"$folder/comments$kib"
done
"$top/calvin" run <"$top/examples/constant.calvin" >/dev/null || exit 1
timed() {
    local name=$1 script=$2
    shift 2
    local from to
    from=$(date +%s%N)
    "$top/calvin" "$@" <"$script" >"$folder/out"
    to=$(date +%s%N)
    printf '%-40s %6d ms  %s\n' "$name" $(((to - from) / 1000000)) "$(tail -n 1 "$folder/out")"
}
# Nanoseconds a firing: what 90,000 firings more cost, the least of five times.
least() {
    local best=1000000000000 from to
    for _ in 1 2 3 4 5; do
        from=$(date +%s%N)
        "$top/calvin" run --firings "$2" <"$1" >"$folder/out"
        to=$(date +%s%N)
        best=$((to - from < best ? to - from : best))
    done
    echo "$best"
}
each() {
    local few many
    few=$(least "$2" 10000)
    many=$(least "$2" 100000)
    printf '%-40s %6d ns a firing\n' "$1" $(((many - few) / 90000))
}
each "chain of three" "$folder/chain"
each "chain of 256" "$folder/longer"
each "fourteen kinds" "$folder/kinds"
if command -v erl >/dev/null && command -v erlc >/dev/null; then
    (cd "$folder" && erlc chain.erl && for _ in 1 2 3 4 5; do erl -noshell -s chain main 100000; done) | sort -n | head -n 1 >"$folder/erlang"
    printf '%-40s %6d ns a firing\n' "chain of three, in Erlang" "$(cat "$folder/erlang")"
fi
timed "100,000 firings of a chain of three" "$folder/chain" run --firings 100000
timed "10,000 firings of a chain of three" "$folder/chain" run --firings 10000
timed "1 MiB of blanks" "$folder/blanks" run
for kib in 256 512 1024; do
    timed "$kib KiB of short statements" "$folder/statements$kib" run
    timed "$kib KiB of targets of one statement" "$folder/targets$kib" run
    timed "$kib KiB of comments" "$folder/comments$kib" run
done
