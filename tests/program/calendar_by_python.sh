# Buckets of the calendar beside those of Python's own calendar, over the first and the last second of each month from
# 1700 to 2099, which is once around: which buckets there are, how many times each holds, and the first and the last of
# them. Needs python3.
set -euo pipefail
python3 - <<'END'
import subprocess
from collections import defaultdict
from datetime import datetime, timedelta, timezone

EPOCH = datetime(1970, 1, 1, tzinfo=timezone.utc)
MONTHS = [datetime(year, month, 1, tzinfo=timezone.utc) for year in range(1700, 2101) for month in range(1, 13)][:4801]


def seconds(moment):
    return (moment - EPOCH) // timedelta(seconds=1)


def day(moment):
    return moment.replace(hour=0, minute=0, second=0)


BEGINS = {
    "day": day,
    "week": lambda moment: day(moment) - timedelta(days=moment.weekday()),
    "month": lambda moment: day(moment).replace(day=1),
    "year": lambda moment: day(moment).replace(month=1, day=1),
}

moments = [moment for start, end in zip(MONTHS, MONTHS[1:]) for moment in (start, end - timedelta(seconds=1))]
lines = ["a: CREATE TABLE m (time BIGINT NOT NULL)", "a: SELECT create_hypertable('m', 'time', chunk_time_interval => 315360000)"]
for at in range(0, len(moments), 1000):
    lines.append("a: INSERT INTO m VALUES " + ", ".join(f"({seconds(moment)})" for moment in moments[at : at + 1000]))
asked = [f"a: SELECT calendar_bucket(1, '{unit}', time) AS x, count(*), min(time), max(time) FROM m GROUP BY x" for unit in BEGINS]
told = subprocess.run(["tsctl", "run"], input="\n".join([*lines, *asked]), capture_output=True, text=True, check=True)
answers = told.stdout.split("ANSWER")[1:]

for (unit, begin), answer in zip(BEGINS.items(), answers, strict=True):
    held = defaultdict(list)
    for moment in moments:
        held[seconds(begin(moment))].append(seconds(moment))
    wanted = [f"{start}|{len(times)}|{times[0]}|{times[-1]}" for start, times in sorted(held.items())]
    found = [line for line in answer.splitlines()[1:] if line[0] in "-0123456789"]
    print(f"{unit}: {len(found)} buckets,", "as Python has them" if found == wanted else "and Python has others")
END
