# From a CSV file to a picture as `docs/TSQ.md` describes it: its blocks of code are run one after the other, and
# the table that it shows is compared with the one that comes. The picture is left out if nothing draws it here.
set -euo pipefail
top="$TSCTL_TOP"
export PATH="$top/tools:$PATH"

awk '
  /^## / { inside = /From a CSV file/; next }
  inside && /^ *```/ { is_code = !is_code; number += is_code; next }
  inside && is_code { sub(/^   /, ""); print > ("block" number) }
' "$top/docs/TSQ.md"

mv block1 readings.csv
mv block2 schema.sql
bash -e block3
bash -e block4
bash -e block5 | sed -n '/ANSWER/,$p' | grep -v '^$' | diff - block6 && echo "the same table"
bash -e block7 >drawn 2>&1 || [ $? -eq 3 ]
bash -e block8
