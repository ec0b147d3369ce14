# Several writers and one folder: all put their lines into a pipe that one run reads; or each is a run of its own, and
# waits for the others at a lock.
set -euo pipefail

# One run reads a pipe. It is held open, so that the run doesn't end with the first writer.
mkfifo lines
tsctl run <lines >replies &
exec 3>lines
cat >lines <<'END'
feed: CREATE TABLE load (time BIGINT NOT NULL, busy BIGINT)
feed: SELECT create_hypertable('load', 'time', chunk_time_interval => 100)
feed: CREATE MATERIALIZED VIEW tens WITH (timescaledb.continuous) AS SELECT time_bucket(10, time) AS start, count(*) FROM load GROUP BY start WITH NO DATA
feed: INSERT INTO load VALUES (5, 40), (15, 60)
END
echo "cron: CALL refresh_continuous_aggregate('tens', NULL, NULL)" >lines
exec 3>&-
wait
cat replies

# Runs that wait for each other.
echo "feed: INSERT INTO load VALUES (16, 1)" >feed.sql
echo "cron: CALL refresh_continuous_aggregate('tens', NULL, NULL)" >cron.sql
for job in feed cron feed cron; do
  flock tsctl.lock tsctl run <"$job.sql" >>out &
done
wait
sed 's/\(: [A-Z]*\).*/\1/' out | sort
tsctl check
