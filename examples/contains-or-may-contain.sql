-- Readable text of a rule file: a convenience, which proves nothing.
-- Candidates: 1152.
TABLE t0 ROWS 2 (c0 1 .. 3 KEY, c1 0 .. 3);
TABLE t1 ROWS 1 (c0 1 .. 2 KEY, c1 0 .. 3);
VIEW v2 AS SELECT a.c1 FROM t0 a WHERE 1 <= a.c1;
VIEW v3 AS SELECT a.c1 FROM t1 a WHERE 1 <= a.c1 AND NOT EXISTS (FROM v2 b WHERE b.c0 = a.c1);
VIEW v4 AS v2 INTERSECT v3;
GOAL POSITIVE v4;
