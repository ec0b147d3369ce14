#!/usr/bin/env bash
# Pages, the choices of DECISIONS and the READMEs of crates are no longer than they should be.
python3 "$TSCTL_TOP/tests/pages/lengths.py"
