-- Readable text of a rule file: a convenience, which proves nothing.
-- Candidates: 2700.
TABLE t0 ROWS 1 (c0 1 .. 3 KEY, c1 3 .. 32, c2 3 .. 32);
VIEW v1 AS SELECT a.c0 FROM t0 a WHERE 10 + a.c1 <= 40;
VIEW v2 AS SELECT a.c0 FROM t0 a WHERE 11 + a.c2 <= 40;
VIEW v3 AS v1 INTERSECT v2;
GOAL NEGATIVE v3;
