# bin/install: what it writes below a prefix, that it runs there with nothing around it, and that it can be removed.
set -uo pipefail
said() { sed -E "s|$PWD|HERE|g; s|: [^ ]+ may not|: USER may not|; s|tsctl [0-9][0-9.]*|tsctl N|"; }
install="$TSCTL_TOP/bin/install"
prefix="$PWD/a prefix"
script="$TSCTL_TOP/examples/first.sql"

PATH=/usr/bin:/bin "$install" "$prefix" 2>&1 | grep -v '^program: ' | said
(cd "$prefix" && find . -path ./lib/tsctl -prune -o ! -type d -print | LC_ALL=C sort | while read -r link; do
  echo "$link -> $(readlink "$link") $([ -r "$link" ] || echo BROKEN)"
done)
find "$prefix" ! -type l ! -perm -a+r -print

echo "# it runs with an empty environment, also called by a link"
env -i "$prefix/bin/tsctl" --new "$PWD/first" run <"$script" | tail -n 2
ln -s "$prefix/bin/tsctl" called
env -i ./called --in first check
env -i PATH=/usr/bin:/bin "$prefix/bin/tsq" --in "$PWD/first" log | head -n 1
env -i "$prefix/bin/tsctl" --in first why >/dev/null; echo "status $?"
echo "# and where the PATH has nothing else"
env -i PATH="$prefix/bin" tsctl --in first check
env -i PATH="$prefix/bin" tsctl --in first why | tail -n 1

echo "# its pages"
env -i "$prefix/bin/tsctl" --help | sed -n '/^Pages/,$p' | awk 'NR > 1 { print $1 }' | while read -r page; do
  [ -s "$prefix/lib/tsctl/$page" ] || echo "$page isn't there"
done
[ -s "$prefix/share/doc/tsctl/SQL.md" ] && head -n 2 "$prefix/share/man/man1/tsctl.1" | tail -n 1

echo "# completions of bash"
complete_words() {
  COMP_WORDS=("$@")
  COMP_CWORD=$(($# - 1))
  COMPREPLY=()
  "_$1"
  echo "$* -> ${COMPREPLY[*]:-}"
}
. "$prefix/share/bash-completion/completions/tsctl"
. "$prefix/share/bash-completion/completions/tsq"
complete_words tsctl ch
complete_words tsctl --un
complete_words tsctl --in first ch
complete_words tsctl par j
complete_words tsctl run r
complete_words tsctl --in fir
PATH="$prefix/bin:/usr/bin:/bin" complete_words tsq expo 2>/dev/null

echo "# again, over another file, where it may not write, and in no place"
"$install" "$prefix" >/dev/null; echo "status $?"
mkdir -p other/bin
echo mine >other/bin/tsctl
"$install" other 2>&1 | said; echo "status ${PIPESTATUS[0]}"
find other
"$install" /proc/none 2>&1 | said; echo "status ${PIPESTATUS[0]}"
env -u HOME "$install" 2>&1; echo "status $?"
"$install" --sideways 2>&1; echo "status $?"

echo "# removed, with what is somebody else's left"
echo mine >"$prefix/bin/mine"
"$install" --remove "$prefix" | said
(cd "$prefix" && find .)
"$install" --remove "$prefix" 2>&1 | said; echo "status ${PIPESTATUS[0]}"
