#!/bin/sh
# Lists the places in src/ that have one of eight older forms, and counts them: tools/forms.sh [-l] [FOLDER]
# (-l prints the lines; FOLDER is the top of a checkout). A line is a place to look at, not a fault.
list=0; [ "$1" = -l ] && { list=1; shift; }
cd "${1:-.}/crates" || exit 1
src() { grep -rnE "$@" --include='*.rt' */src; }
show() { # name, lines on standard input
    lines=$(cat); n=$(printf '%s' "$lines" | grep -c .)
    printf '%s: %s\n' "$1" "$n"
    [ $list = 1 ] && [ "$n" -gt 0 ] && printf '%s\n' "$lines"
}
{ src '(->|[:<(,]) *(Result<[^>]*)?\bu8\b'; src '[^_a-z](routed|by_time|found): bool'; src '\bNowhere,$'; src '\bClass\([0-9]\)|class\(\) == [0-9]'; } |
    sort -u | show '1 numbers for kinds and refusals, flags beside a value, own Option or Result'
src 'Side::(Buy|Sell) => [^"]|by_time \{' | show '2 arms that differ in a side or a rule'
src '^ *(while [^l]|for [a-z_]+ in [^{]*\.\.)' | show '3 loops over an index'
{ src '=> (true|false),|None => (false|None),|=> [0-9]+,|\.next\(\)\?\.parse'; src '^ *(let )?(if )?[a-z.]+ != [a-z.]+ \{|[ab] < [ab] \|\|'; src 'print(ln)?!\('; } |
    sort -u | show '4 equality, order, conversion and printing by hand'
src '^ *(requires|ensures)[^{]*\{' | sed -E 's/^[^:]*:[0-9]+: *(requires|ensures)[^{]*//' | sort | uniq -c | awk '$1 >= 3' | show '5 facts in three contracts or more (kinds of fact)'
{ src '\b(n|len|lines|count|[a-z]+_count): usize'; src '\[[A-Za-z]+; 16\]|: (&mut |&)?Vec<'; } | grep -v 'ensures\|requires' | sort -u | show '6 buffers with a length beside them, and vectors'
src 'match (self|end|call|step|part|group|side)\b|if by_time' | show '7 switches'
find . -name Answers.antt -path '*/proofs/*' -not -path '*/out/*' | sort | xargs grep -HcE '^pub ' | show '8 files of answers'
