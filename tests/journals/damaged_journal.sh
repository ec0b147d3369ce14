# A journal that is damaged at a place: one 0 at that place gives back every event before it.
set -euo pipefail

tsctl run >/dev/null <<'END'
a: CREATE TABLE m (time BIGINT NOT NULL, v BIGINT)
a: SELECT create_hypertable('m', 'time', chunk_time_interval => 100)
a: INSERT INTO m VALUES (1, 5), (2, 6)
a: INSERT INTO m VALUES (3, 7)
END
# The kind of the third event is changed into one that there isn't.
printf '\x09' | dd of=tsctl.journal bs=1 seek=58 conv=notrunc status=none
tsctl log 2>&1 || echo "status $?"

cp tsctl.journal damaged.journal
place="$({ tsctl log 2>&1 || true; } | sed -n 's/^tsctl: journal damaged at //p')"
printf '\0' | dd of=tsctl.journal bs=1 seek="$place" conv=notrunc status=none
tsctl log
echo "a: INSERT INTO m VALUES (4, 8)" | tsctl run
