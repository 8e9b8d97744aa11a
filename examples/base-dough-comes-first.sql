-- Readable text of a rule file: a convenience, which proves nothing.
-- Candidates: 15625.
TABLE t0 ROWS 3 (c0 1 .. 5 KEY, c1 1 .. 5);
FOREIGN KEY t0 (c1) REFERENCES t0 (c0);
VIEW v1 AS
    SELECT COUNT(a.c0), MAX(a.c1 - a.c0)
    FROM t0 a
    GROUP BY ()
    HAVING MAX(a.c1 - a.c0) < 0;
GOAL POSITIVE v1;
