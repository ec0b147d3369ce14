-- Any session of a later run may take up the refresh: its number is that of its cut.
b: SELECT * FROM hours
b: REFRESH FINISH 5
b: REFRESH SNAP 5
b: REFRESH FINISH 5
b: SELECT * FROM hours
