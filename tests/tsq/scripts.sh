# Each script of examples/ and tests/scripts/ by tools/tsq: it ends with the status of tsctl, and CSV and JSON can be read, with as many
# rows as the replies have. Names the script where that isn't so.
set -euo pipefail
python3 - "$TSCTL_TOP" <<'END_OF_PYTHON'
import csv
import io
import json
import re
import sys
import tempfile
from contextlib import redirect_stderr, redirect_stdout
from multiprocessing import get_context
from pathlib import Path

top = Path(sys.argv[1]).resolve()
sys.path.insert(0, str(top / "tools"))
from tsqlib.main import main


def tsq(*words):
    """The status of tsq with these words, and what it prints."""
    out = io.TextIOWrapper(io.BytesIO(), encoding="utf-8")
    with redirect_stdout(out), redirect_stderr(io.StringIO()):
        status = main(["run", *map(str, words)])
    out.flush()
    return status, out.buffer.getvalue().decode().splitlines()


def csv_rows(lines):
    """How many rows each answer has, whose names come first; as many cells stand in each."""
    sizes = []
    for answer in "\n".join(lines).split("\n\n") if lines else []:
        names, *rows = csv.reader(io.StringIO(answer))
        if any(len(row) != len(names) for row in rows):
            raise ValueError(f"a row has other cells than {names}")
        sizes.append(len(rows))
    return sizes


def try_script(script):
    """What is wrong with what tsq makes of a script, if anything."""
    status = script.with_suffix(".status")
    wanted = int(status.read_text()) if status.exists() else 0
    replies = script.with_suffix(".out")
    sizes = [int(rows) for rows in re.findall(r"^\w+: ANSWER .* rows (\d+) ", replies.read_text(), re.M)]
    with tempfile.TemporaryDirectory() as folder:
        ended, objects = tsq(script, "--json", "--in", folder)
    for line in objects:
        json.loads(line)
    given = csv_rows(tsq(script, "--csv", "--replies", replies)[1])
    if (ended, len(objects), given) != (wanted, sum(sizes), sizes):
        return f"{script.name}: status {ended} for {wanted}, {len(objects)} and {given} rows for {sizes}"
    return None


scripts = [*(top / "examples").glob("*.sql"), *(top / "tests/scripts").glob("*.sql")]
with get_context("fork").Pool() as pool:
    wrong = list(filter(None, pool.map(try_script, sorted(scripts))))
print(*wrong, f"wrong: {len(wrong)}" if scripts else "no script", sep="\n")
END_OF_PYTHON
