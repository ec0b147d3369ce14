# Statements as they are typed into tools/tsq, in the session `me` where none is named.
set -euo pipefail
tsq="$TSCTL_TOP/tools/tsq"

HOME="$PWD" "$tsq" prompt <<'END'
CREATE TABLE load (time BIGINT NOT NULL, busy BIGINT)
SELECT create_hypertable('load', 'time', chunk_time_interval => 100)

-- A comment has no reply.
feed: INSERT INTO load VALUES (5, 40), (6, 41), (15, 60)
CREATE MATERIALIZED VIEW tens WITH (timescaledb.continuous) AS SELECT time_bucket(10, time) AS start, avg(busy) AS busy FROM load GROUP BY start
INSERT INTO load VALUES (6, 20)
SELECT * FROM tens
SELECT * FROM tens LIMIT 1
COMMIT
\q
END

# Bytes that are no text are refused as in a script, whatever the locale, and the prompt goes on.
printf 'SELECT \377\nSELECT * FROM tens\n' | HOME=/nowhere LC_ALL=C "$tsq" prompt

# Statements over lines, several on a line, and commands of the prompt. A DELETE without its semicolon doesn't run.
cat >more.txt <<'END'
INSERT INTO load VALUES (25, 1); DELETE FROM load
  WHERE busy = 60;
DELETE FROM load
SELECT * FROM load
\d
\d tens
\stale
\watermark tens
\x
SELECT * FROM tens WHERE start = 10
\x
\pset times s
\pset format csv
SELECT * FROM load
WHERE time > 5;
SELECT * FROM load WHERE time > '1970-01-01' AND time < '1970-01-01 00:00:06';
\pset format table
SELECT * FROM load WHERE time > 'noon';
\i script.sql
\policies
\d nothing
BEGIN
INSERT INTO load VALUES (1, 1)
quit
END
echo "x: SELECT add_retention_policy('load', drop_after => INTERVAL '1 hour')" >script.sql
HOME="$PWD" "$tsq" prompt <more.txt 2>&1

# The unit of times is said once, and remembered by what is defined with an interval.
mkdir units
cat >units.txt <<'END'
CREATE TABLE m (time BIGINT NOT NULL, v BIGINT);
SELECT create_hypertable('m', 'time', chunk_time_interval => INTERVAL '1 day');
\pset times s
SELECT create_hypertable('m', 'time', chunk_time_interval => INTERVAL '1 day');
\pset times ms
\pset places 1
INSERT INTO m VALUES ('2026-10-25 06:00', 1);
END
HOME="$PWD" "$tsq" prompt --in units <units.txt 2>&1
printf "SELECT * FROM m WHERE time > '2026-10-25';\n" | HOME="$PWD" "$tsq" prompt --in units 2>&1
cat units/tsctl.names
