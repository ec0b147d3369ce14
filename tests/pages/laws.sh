#!/usr/bin/env bash
# The list of laws that no call uses, in docs/PROOFS.md, is what the proofs say.
python3 "$TSCTL_TOP/tests/pages/laws.py"
