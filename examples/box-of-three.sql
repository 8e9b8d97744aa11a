-- Readable text of a rule file: a convenience, which proves nothing.
-- Candidates: 979776.
TABLE t0 ROWS 1 (c0 0 .. 20);
TABLE t1 ROWS 3 (c0 20 .. 55);
VIEW v2 AS SELECT a.c0 * b.c0, ROUND(a.c0 * b.c0, 50) FROM t0 a, t1 b;
VIEW v3 AS
    SELECT SUM(a.c1), ROUND(SUM(a.c0), 50)
    FROM v2 a
    GROUP BY ()
    HAVING NOT (SUM(a.c1) = ROUND(SUM(a.c0), 50));
GOAL POSITIVE v3;
