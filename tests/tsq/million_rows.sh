# A few hundred rows through the trial that takes a million: what differs ends it. PostgreSQL and pictures take part if they
# are here. As root, PostgreSQL is another user's, who has to reach the folder.
set -euo pipefail
TMPDIR=/tmp "$TSCTL_TOP/trials/million_rows" 500 7 2>/dev/null | grep "the folder$"
