-- Readable text of a rule file: a convenience, which proves nothing.
-- Candidates: 1024.
TABLE t0 ROWS 2 (c0 1 .. 2, c1 25 .. 40);
VIEW v1 AS SELECT a.c0, a.c1 FROM t0 a WHERE 30 <= a.c1;
VIEW v2 AS
    SELECT a.c0, SUM(a.c1)
    FROM v1 a
    GROUP BY a.c0
    HAVING COUNT(a.c1) = 2 AND MAX(a.c1) - MIN(a.c1) <= 5;
GOAL NEGATIVE v2;
