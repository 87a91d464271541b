#!/bin/sh
# how the library's instructions grow with the line: growth.sh [SIZE..]
cd "$(dirname "$0")" || exit 1
sizes=${*:-100 200 400 800 1600 3200 4096}
echo "| act | $(echo "$sizes" | sed 's/ / | /g') |"
echo "|---|$(echo "$sizes" | sed 's/[0-9]* */---|/g')"
for work in type redraw notice go lit lit-go; do
    row="| $work |"
    for bytes in $sizes; do row="$row $(./count.sh $work "$bytes" ours | cut -d' ' -f4) |"; done
    echo "$row"
done
