-- Readable text of a rule file: a convenience, which proves nothing.
-- Candidates: 72.
TABLE t0 ROWS 1 (c0 1 .. 3 KEY, c1 2 .. 25);
VIEW v1 AS SELECT a.c0, 1 FROM t0 a WHERE a.c1 <= 8;
VIEW v2 AS SELECT a.c0, 2 FROM t0 a WHERE 15 <= a.c1;
VIEW v3 AS v1 UNION v2;
GOAL NEGATIVE v3;
