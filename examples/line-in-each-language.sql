-- Readable text of a rule file: a convenience, which proves nothing.
-- Candidates: 46656.
TABLE t0 ROWS 6 (c0 1 .. 3 KEY, c1 0 .. 1 KEY);
VIEW v1 AS SELECT a.c0, COUNT(a.c1) FROM t0 a GROUP BY a.c0 HAVING COUNT(a.c1) = 2;
GOAL NEGATIVE v1;
