-- Readable text of a rule file: a convenience, which proves nothing.
-- Candidates: 1296.
TABLE t0 ROWS 2 (c0 1 .. 3 KEY, c1 0 .. 1 KEY);
TABLE t1 ROWS 2 (c0 1 .. 2 KEY, c1 1 .. 3 KEY);
VIEW v2 AS SELECT a.c0, a.c1 FROM t1 a WHERE NOT EXISTS (FROM t0 b WHERE b.c0 = a.c1);
GOAL POSITIVE v2;
