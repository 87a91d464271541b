#!/bin/sh
# a table of instructions: counts.sh [SIZE..]
cd "$(dirname "$0")" || exit 1
sizes=${*:-80 1000 4096}
echo "| act | bytes of the line | ours | the crate | ours / crate |"
echo "|---|---|---|---|---|"
for work in type redraw redraw-at-start notice notice-at-start go lit lit-go; do
    for bytes in $sizes; do
        ours=$(./count.sh $work "$bytes" ours | cut -d' ' -f4)
        theirs=$(./count.sh $work "$bytes" theirs | cut -d' ' -f4)
        echo "| $work | $bytes | $ours | $theirs | $(echo "scale=2; $ours / $theirs" | bc | sed 's/^\./0./') |"
    done
done
