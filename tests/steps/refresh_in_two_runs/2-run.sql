a: CALL refresh_continuous_aggregate('c', NULL, NULL)
a: INSERT INTO m VALUES (120, 1, 7)
r: REFRESH CUT 'c', NULL, NULL
