# The journal's file: syncs before replies, each call of it failing in turn, and a file of more than 5 GiB.
set -euo pipefail
# Without a C compiler no call is noted or made to fail.
if command -v cc >/dev/null; then "$TSCTL_TOP/trials/real_files" order calls >tried; fi
"$TSCTL_TOP/trials/real_files" long
