#!/usr/bin/env bash
# The worked bytes of docs/JOURNAL.md are those that the program writes and reads.
python3 "$TSCTL_TOP/tests/pages/journal.py"
