#!/bin/sh
# carry_folder.sh WAY FROM TO: converts the plans of the folder FROM, *.plan, to the other edition, into the folder TO under
# the same names. WAY is forward or back. Prints a line for each plan that is turned back, as 'a.plan: refused 2 row 0 entry 0';
# if TO has a plan of that name, it stays as it was. The status is 0 if every plan was converted, and else 1.
#
# make carry WAY=forward FROM=samples/p.plan TO=/tmp/p.plan    (proves and builds the program)
# examples/carry_folder.sh forward archive new >turned_back.txt
if [ $# -ne 3 ] || { [ "$1" != forward ] && [ "$1" != back ]; }; then
    echo 'usage: carry_folder.sh forward|back FROM TO' >&2
    exit 2
fi
way=$1
from=$2
to=$3
carry=$(dirname "$0")/../tools/carry
if [ ! -d "$from" ]; then
    printf "carry_folder.sh: there is no folder '%s'\n" "$from" >&2
    exit 2
fi
mkdir -p -- "$to" || exit 2

status=0
for plan in "$from"/*.plan; do
    # In a folder without plans, the pattern itself is left, and names nothing.
    [ -e "$plan" ] || [ -L "$plan" ] || continue
    name=${plan##*/}
    said=$("$carry" "$way" "$plan" "$to/$name" 2>&1) && continue
    printf '%s: %s\n' "$name" "$said"
    status=1
done
exit $status
