# The man pages have what the program and the pages have: commands, options, statuses, refusals, and an example's replies.
set -uo pipefail
man="$TSCTL_TOP/man"
# Says which of the lines of one list another one lacks: its name, both lists.
lacks() {
  comm -23 <(sort -u <<<"$2") <(sort -u <<<"$3") | sed "s/^/$1 lacks /"
}

help="$(tsctl --help)"
page="$(sed 's/\\//g' "$man/tsctl.1")"
commands="$(sed -n 's/^  \([a-z][a-z]*\) .*   *[a-z].*/\1/p' <<<"$help" | grep -v '^tsctl$')"
lacks "tsctl(1)" "$commands" "$(sed -n 's/^\.It Cm \([a-z]*\).*/\1/p' <<<"$page")"
lacks "tsctl(1)" "$(grep -o -- '--[a-z]*' <<<"$help")" "$(sed -n 's/^\.It Fl \(-[a-z]*\).*/-\1/p' <<<"$page")"
lacks "tsctl(1)" "$(sed -n '/^Exit status/,/^$/p' <<<"$help" | grep -oE '\b[0-9]+ [a-z]' | cut -d' ' -f1)" \
  "$(sed -n 's/^\.It \([0-9]*\)$/\1/p' <<<"$page")"
lacks "completion" "$commands" "$(sed -n 's/.*commands="\(.*\)"/\1/p' "$TSCTL_TOP/completions/tsctl.bash" | tr ' ' '\n')"
lacks "completion of zsh" "$commands" "$(sed -n "s/^    '\([a-z]*\):.*/\1/p" "$TSCTL_TOP/completions/_tsctl")"

refusals() { sed -nE "$1" "$2"; }
lacks "tsctl-sql(7)" "$(refusals 's/^\| (E[0-9]+) \| `([a-z_]+)`.*/\1 \2/p' "$TSCTL_TOP/docs/SQL.md")" \
  "$(refusals 's/^\.It (E[0-9]+ [a-z_]+)$/\1/p' "$man/tsctl-sql.7")"

tsq_commands="$("$TSCTL_TOP/tools/tsq" --help | sed -n 's/.*{\(.*\)}.*/\1/p' | head -n 1 | tr , '\n' | grep -v help)"
lacks "tsq(1)" "$tsq_commands" "$(sed -n 's/^\.It Cm \([a-z]*\).*/\1/p' "$man/tsq.1")"

# The example of tsctl(1), which makes a table t.
sed -n '/^\$ cat late.sql/,/^\$ tsctl/p' "$man/tsctl.1" | grep '^a: ' >late.sql
sed -n '/^\$ tsctl --new/,/^\.Ed/p' "$man/tsctl.1" | grep -v '^[$.]' >wanted
tsctl --new late run <late.sql | diff - wanted && echo "the example is as it runs"

# And that of tsq(1), in the same folder.
sed -n '/^\$ echo/,/^\.Ed/p' "$man/tsq.1" | grep -v '^[$.]' >wanted
echo "b: SELECT * FROM m" | "$TSCTL_TOP/tools/tsq" --in late | sed '${/^$/d}' | diff - wanted && echo "that of tsq, too"
