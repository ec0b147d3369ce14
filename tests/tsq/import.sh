# Dumps of pg_dump in a new folder: dates, decimals, texts, truth values and NULL, parts of tables, and views.
set -euo pipefail
tsq="$TSCTL_TOP/tools/tsq"

cat >dump.sql <<'SQL'
-- PostgreSQL database dump
SET client_encoding = 'UTF8';
CREATE TABLE public."Readings" (
    "time" timestamp with time zone NOT NULL,
    "Device" text DEFAULT 'none'::text NOT NULL,
    celsius numeric(8,4),
    ratio double precision,
    ok boolean,
    seen timestamp without time zone
);
CREATE TABLE public.readings_old (
    CONSTRAINT old CHECK (("time" < '2024-01-01 00:00:00+00'::timestamp with time zone))
)
INHERITS (public."Readings");
CREATE TABLE public.devices (
    id integer NOT NULL,
    name text
);
CREATE TABLE public.other (
    day date,
    celsius integer
);
CREATE VIEW public.hours AS
 SELECT date_bin('01:00:00'::interval, "Readings"."time", '0001-01-01 00:30:00+00'::timestamp with time zone) AS hour,
    "Readings"."Device",
    count(*) AS n,
    avg("Readings".celsius) AS mean
   FROM public."Readings"
  WHERE (("Readings".celsius > '-1.5'::numeric) AND ("Readings"."Device" <> 'it''s'::text))
  GROUP BY (date_bin('01:00:00'::interval, "Readings"."time", '0001-01-01 00:30:00+00'::timestamp with time zone)), "Readings"."Device";
CREATE VIEW public.latest AS
 SELECT DISTINCT ON ("Readings"."Device") "Readings".celsius
   FROM public."Readings";
COPY public."Readings" ("time", "Device", celsius, ratio, ok, seen) FROM stdin;
2024-01-01 00:00:00+00	pump-a	20.5000	1e-05	t	2024-01-01 00:00:00
2024-01-01 01:00:00.25+01	tab\\t\there	-0.2500	\N	f	\N
2024-01-01 01:30:00+00	it's	\N	12.5	\N	\N
\.
COPY public.readings_old (celsius, "Device", "time") FROM stdin;
7.1000	pump-a	2023-12-31 23:59:59+00
\.
COPY public.devices (id, name) FROM stdin;
1	pump-a
\.
COPY public.other (day, celsius) FROM stdin;
2024-01-01	3
\.
-- PostgreSQL database dump complete
SQL
"$tsq" import dump.sql --into new 2>&1
(cd new && ls -A && cat tsctl.names && tsctl log && printf 'a: SELECT * FROM %s\n' readings other hours | tsctl run)

# All or nothing, and only into a new folder.
"$tsq" import dump.sql --into new 2>&1 || echo "status $?"
sed 's/12\.5/NaN/; s/-0\.2500/1e-31/' dump.sql >bad.sql
"$tsq" import bad.sql --into bad 2>&1 || echo "status $?"
"$tsq" import - --into rounded --null NaN --round celsius=1 --times us <bad.sql 2>&1 | grep -v "left out"
(cd rounded && echo "a: SELECT * FROM readings" | tsctl run)
head -n 40 dump.sql | "$tsq" import - --into cut 2>&1 || echo "status $?"
ls -A
