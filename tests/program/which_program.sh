# Which program bin/tsctl runs, and what it says of it: tried in a copy of bin/ whose toolchain and programs only say
# who they are, so that nothing is built here.
set -uo pipefail
said() { sed "s|$PWD|HERE|g"; }
mkdir -p kit copy/tools copy/crates/tsctl/src copy/crates/low/src copy/crates/apart/src
cp -r "$TSCTL_TOP/bin" copy/
echo "## 3.1 (a test)" >copy/CHANGES.md
echo "tsctl: low" >copy/crates.txt
printf '%s:\n' low apart >>copy/crates.txt
touch copy/crates/tsctl/src/main.rt copy/crates/tsctl/src/Lib.antt copy/crates/low/src/lib.rt copy/crates/apart/src/lib.rt
cat >copy/tools/build <<'END'
#!/bin/sh
printf '#!/bin/sh\necho "without proofs: $*"\n' >"$1"
chmod +x "$1"
END
cat >kit/rt <<'END'
#!/bin/sh
echo "$* of $(cut -d: -f1 crates.txt | sort | tr '\n' ' ')" >>"$CALLS"
if [ "$SAYS" = slow ]; then
  sleep 600 &
  echo "$!" >"$CALLS.slow"
  wait
fi
if [ "$SAYS" = refused ]; then
  echo "rt: low NOT PROVED"
  exit 1
fi
for crate in low tsctl; do
  [ -d "crates/$crate/src" ] && echo "rt: $crate proved"
done
mkdir crates/tsctl/out
printf '#!/bin/sh\necho "proved: $*"\n' >crates/tsctl/out/tsctl
chmod +x crates/tsctl/out/tsctl
END
chmod +x copy/tools/build kit/rt
export CALLS="$PWD/calls" SAYS=proved
tsctl() { copy/bin/tsctl "$@" 2>&1 | said; }

PATH="$PWD/kit:$PATH"

echo "# a fresh clone"
tsctl --proved run
tsctl --help | head -n 1
tsctl run
tsctl run
tsctl --unproved run

copy/bin/tsctl run 2>&-

echo "# a proof that fails, and one that doesn't"
SAYS=refused copy/bin/prove --jobs 2 2>&1 | said
copy/bin/prove --jobs 2 2>&1 | said
cat calls
tsctl run
tsctl --proved log
tsctl --unproved par

echo "# after a change of a proof, and of a source"
touch copy/crates/tsctl/src/Lib.antt
tsctl run
touch copy/crates/tsctl/src/main.rt
tsctl run
tsctl --proved run

echo "# where the one without proofs checks each access"
printf '#!/bin/sh\n# AddressSanitizer\necho "checked: $*"\n' >copy/crates/tsctl/out/unproved
tsctl run

echo "# a proof that is stopped, with all that it has started"
SAYS=slow copy/bin/prove --jobs 1 >said 2>&1 &
until [ -s calls.slow ]; do sleep 0.05; done
copy/bin/prove 2>&1 || echo "status $?, of another call meanwhile"
kill -TERM "$!"
wait "$!" || echo "status $?"
said <said
for _ in $(seq 100); do kill -0 "$(cat calls.slow)" 2>/dev/null || break; sleep 0.05; done
kill -0 "$(cat calls.slow)" 2>/dev/null && echo "something is left"

echo "# what --version says of each"
for made in "echo plain" "# AddressSanitizer"; do
  printf '#!/bin/sh\n%s\n' "$made" >copy/crates/tsctl/out/unproved
  copy/bin/tsctl --version
done
touch copy/crates/tsctl/out/proved
copy/bin/tsctl --version

echo "# a signal reaches the program, whose status is the call's, and a program doesn't outlive its call"
printf '#!/bin/sh\necho $$ >number\nexec sleep 60\n' >copy/crates/tsctl/out/unproved
for number in HUP INT TERM KILL; do
  rm -f number
  # A shell has what it starts beside itself ignore an interrupt.
  python3 -c "import os, signal; signal.signal(signal.SIGINT, signal.SIG_DFL)
os.execvp('copy/bin/tsctl', ['tsctl', '--unproved', 'run'])" &
  until [ -s number ]; do sleep 0.05; done
  kill "-$number" "$!"
  wait "$!" 2>/dev/null || echo "status $?"
  for _ in $(seq 100); do kill -0 "$(cat number)" 2>/dev/null || break; sleep 0.05; done
  kill -0 "$(cat number)" 2>/dev/null && echo "something is left"
done
printf '#!/bin/sh\nkill -ILL $$\n' >copy/crates/tsctl/out/unproved
copy/bin/tsctl --unproved run 2>&1 || echo "status $?"

echo "# another user, who may only read and run"
shared="$(TMPDIR=/tmp mktemp -d)"
trap 'chmod -R u+w "$shared"; rm -rf "$shared"' EXIT
cp -r copy "$shared/clone"
chmod -R a+rX,a-w "$shared"
# A user without rights there, if this one has all; its status is that of what shortens its words.
other() {
  local user=()
  [ "$(id -u)" -ne 0 ] || user=(setpriv --reuid 65534 --regid 65534 --clear-groups --)
  "${user[@]}" env HOME=/ "$shared/clone/bin/tsctl" --in / "$@" 2>&1 | sed "s|$shared|SHARED|g; s|$(id -un)|USER|g; s|nobody|USER|g"
}
printf '#!/bin/sh\necho "without proofs: $*"\n' >copy/crates/tsctl/out/unproved
chmod u+w "$shared/clone/crates/tsctl/out" "$shared/clone/crates/tsctl/out/unproved"
cp copy/crates/tsctl/out/unproved "$shared/clone/crates/tsctl/out/"
chmod a-w "$shared/clone/crates/tsctl/out"
other --unproved demo 7
chmod u+w "$shared/clone/crates/low/src"
touch "$shared/clone/crates/low/src/lib.rt"
other --unproved demo 7
other --proved demo 7 || true
other --new "$shared/clone/first" run || true
