-- Readable text of a rule file: a convenience, which proves nothing.
-- Candidates: 163216.
TABLE t0 ROWS 2 (c0 1 .. 4 KEY, c1 0 .. 100);
VIEW v1 AS SELECT a.c0 FROM t0 a WHERE 60 <= a.c1;
VIEW v2 AS SELECT a.c0 FROM t0 a WHERE a.c1 <= 40;
VIEW v3 AS v1 INTERSECT v2;
GOAL POSITIVE v3;
