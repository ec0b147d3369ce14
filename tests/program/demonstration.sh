# The summary of a demonstration: its script makes, loads, refreshes and asks, over a store of its own.
set -euo pipefail
tsctl demo 7
ls
