# A run that was killed within a tick, whose journal ends before the first, the second or the third event of it: what
# was made stands. A run that goes on has no policy; once they are added again, a tick at the same time makes up for it.
set -euo pipefail

tsctl run <<'END'
a: CREATE TABLE m (time BIGINT NOT NULL, v BIGINT)
a: SELECT create_hypertable('m', 'time', chunk_time_interval => 100)
a: CREATE MATERIALIZED VIEW c WITH (timescaledb.continuous) AS SELECT time_bucket(10, time) AS b, count(*) AS n FROM m GROUP BY b WITH NO DATA
a: INSERT INTO m VALUES (20, 5), (120, 7)
p: SELECT add_continuous_aggregate_policy('c', start_offset => NULL, end_offset => 10, schedule_interval => 50)
p: SELECT add_retention_policy('m', drop_after => 100)
p: TICK 250
END
cp tsctl.journal whole.journal

# The gate before the event with a number: one of a byte stands before each frame, which begins with its length.
gate_before() {
  local place=8 number
  for ((number = 1; number < $1; number++)); do
    place=$((place + 5 + $(od -An -tu4 -j $((place + 1)) -N 4 whole.journal)))
  done
  echo "$place"
}

for event in 5 6 7; do
  echo "-- killed before event $event"
  cp whole.journal tsctl.journal
  printf '\0' | dd of=tsctl.journal bs=1 seek="$(gate_before "$event")" conv=notrunc status=none
  tsctl check
  tsctl run <<'END'
p: TICK 250
p: SELECT add_continuous_aggregate_policy('c', start_offset => NULL, end_offset => 10, schedule_interval => 50)
p: SELECT add_retention_policy('m', drop_after => 100)
p: TICK 250
p: SELECT * FROM c
p: SELECT * FROM m
END
done
