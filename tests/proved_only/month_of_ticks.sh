#!/usr/bin/env bash
# A month of readings, one in each hour, with a tick after each: a refresh of the last day every hour, and once a day
# what is older than a week is dropped. One reading arrives five hours late, and the next tick refreshes its hour; another
# arrives two days late, and no tick does. Shown are the first day's last tick, the late readings, and the end.
set -euo pipefail
{
  echo "m: CREATE TABLE readings (at BIGINT NOT NULL, v BIGINT)"
  echo "m: SELECT create_hypertable('readings', 'at', chunk_time_interval => 86400)"
  echo "m: CREATE MATERIALIZED VIEW hourly WITH (timescaledb.continuous, timescaledb.materialized_only = false) AS SELECT time_bucket(3600, at) AS hour, count(*) AS n FROM readings GROUP BY hour WITH NO DATA"
  echo "p: SELECT add_continuous_aggregate_policy('hourly', start_offset => 86400, end_offset => 3600, schedule_interval => 3600)"
  echo "p: SELECT add_retention_policy('readings', drop_after => 604800, schedule_interval => 86400)"
  for hour in $(seq 0 719); do
    echo "m: INSERT INTO readings VALUES ($((hour * 3600 + 1800)), 1)"
    echo "p: TICK $((hour * 3600 + 3600))"
    case $hour in
      23) echo "day: SELECT * FROM hourly WHERE hour >= 79200" ;;
      100)
        echo "late: INSERT INTO readings VALUES (342900, 1)"
        echo "late: SELECT * FROM hourly WHERE hour = 342000"
        ;;
      101) echo "late: SELECT * FROM hourly WHERE hour = 342000" ;;
      200) echo "late: INSERT INTO readings VALUES (540900, 1)" ;;
      203) echo "late: SELECT * FROM hourly WHERE hour = 540000" ;;
    esac
  done
  echo "end: SELECT time_bucket(2592000, at) AS month, count(*) FROM readings GROUP BY month"
  echo "end: SELECT time_bucket(2592000, hour) AS month, sum(n) FROM hourly GROUP BY month"
} | tsctl run | awk '
  /^p: TICK/ { shown = $3 == 86400 || $3 == 367200 || $3 == 2509200 }
  /^m:/ { shown = NR < 4 }
  /^p: POLICY|^day:|^late:|^end:/ { shown = 1 }
  shown'
