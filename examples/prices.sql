-- Prices in cents, from two markets that write in turns. The amounts pass 64 bits in a sum.
north: CREATE TABLE trades (at BIGINT NOT NULL, paper BIGINT NOT NULL, price BIGINT NOT NULL, amount BIGINT)
north: SELECT create_hypertable('trades', 'at', chunk_time_interval => 3600)
north: INSERT INTO trades VALUES (100, 7, 5000, 10), (130, 7, 5100, 9223372036854775807)
south: INSERT INTO trades (paper, price, at, amount) VALUES (7, 4900, 155, 9223372036854775807), (8, 120, 160, 4)
south: INSERT INTO trades (paper, price, at) VALUES (8, 125, 185)
north: SELECT time_bucket(60, at, 10) AS minute, paper, min(price) AS low, max(price) AS high, sum(amount) AS volume FROM trades GROUP BY minute, paper

-- A trade is taken back, and another one never was: a name is wrong, a value is missing.
north: DELETE FROM trades WHERE paper = 7 AND price > 5000
north: DELETE FROM trades WHERE isin = 7
south: INSERT INTO trades VALUES (190, 8, NULL, 1)
south: SELECT * FROM trades WHERE amount <> 10
