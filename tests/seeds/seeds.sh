# Lives of a database that failed once, and those of some numbers; and what the second implementation replies to the
# scripts of the other tests.
set -euo pipefail
cd "$TSCTL_TOP"
trials/model.py same examples/*.sql tests/scripts/*.sql tests/steps/* | sed 's/^[0-9]* scripts/scripts/'
trials/trial tests/seeds/*.life | sed 's/^[0-9]* lives/kept lives/'
trials/trial 1 12
