#!/usr/bin/env bash
# Words that were replaced by others have not come back.
python3 "$TSCTL_TOP/tests/pages/words.py"
