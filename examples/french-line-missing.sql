-- Readable text of a rule file: a convenience, which proves nothing.
-- Candidates: 31104.
TABLE t0 ROWS 3 (c0 1 .. 3 KEY, c1 0 .. 1 KEY);
TABLE t1 ROWS 2 (c0 1 .. 2, c1 1 .. 3, c2 0 .. 1);
FOREIGN KEY t1 (c1, c2) REFERENCES t0 (c0, c1);
VIEW v2 AS SELECT a.c0, a.c1, COUNT(a.c2) FROM t1 a GROUP BY a.c0, a.c1 HAVING MAX(a.c2) = 0;
GOAL POSITIVE v2;
