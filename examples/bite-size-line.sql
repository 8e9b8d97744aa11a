-- Readable text of a rule file: a convenience, which proves nothing.
-- Candidates: 110889.
TABLE t0 ROWS 2 (c0 1 .. 3 KEY, c1 10 .. 120);
VIEW v1 AS SELECT a.c0, a.c1 FROM t0 a WHERE 30 <= a.c1;
VIEW v2 AS SELECT a.c0 FROM v1 a WHERE a.c1 <= 25;
GOAL POSITIVE v2;
