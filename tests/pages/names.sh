#!/usr/bin/env bash
# What pages and the READMEs of crates name exists: in the sources, or as a section of a page.
python3 "$TSCTL_TOP/tests/pages/names.py"
