-- Readable text of a rule file: a convenience, which proves nothing.
-- Candidates: 1152.
TABLE t0 ROWS 2 (c0 1 .. 3 KEY, c1 0 .. 3);
TABLE t1 ROWS 1 (c0 1 .. 2 KEY, c1 0 .. 3);
VIEW v2 AS SELECT a.c1 FROM t0 a WHERE 1 <= a.c1;
VIEW v3 AS SELECT a.c1 FROM t1 a WHERE 1 <= a.c1;
VIEW v4 AS v2 UNION v3;
VIEW v5 AS SELECT a.c0, COUNT(a.c0) FROM v4 a GROUP BY a.c0 HAVING 2 <= COUNT(a.c0);
GOAL POSITIVE v5;
