# What three sites do, by whatever their states are carried; the scripts by-* read this. Their words are the launchers lasp and site.
# Each site has a folder in the one that this is run in: its state is the file `state` there, and what it got of another site the file of that name in `others`.
# shellcheck shell=bash
set -euo pipefail
shopt -s nullglob
lasp="$1"
site="$2"
here="$(cd "$(dirname "${BASH_SOURCE[0]}")" && pwd)"
graph="$here/graph.json"
names=(north south depot)


# has a site, by its number, take in what it got and then make its edits of this round
update() {
    local name="${names[$1]}" round="$2" own=/dev/null
    mkdir -p "$name/others"
    [ ! -e "$name/state" ] || own="$name/state"
    # the new state is written beside, brought to the disk, and then renamed: whoever looks finds the old one or the new one, whole, even after a loss of power
    "$site" "$graph" "$1" "$own" "$here/$name/$round.json" "$name"/others/* >"$name/state.new"
    sync "$name/state.new"
    mv "$name/state.new" "$name/state"
}

show() {
    "$lasp" merge "$graph" "$1/state" | sed "s/^/$1 /"
}

# three rounds: each site makes its edits, and then `carry` brings the states to the others; at the end none has anything left to do but to take in
play() {
    local round number
    for round in 1 2 3; do
        for number in 0 1 2; do
            update "$number" "$round"
        done
        if [ "$round" != 3 ]; then
            echo "north in round $round"
            show north
            carry
        fi
    done
    for name in "${names[@]}"; do
        show "$name"
    done
}
