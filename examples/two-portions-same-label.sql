-- Readable text of a rule file: a convenience, which proves nothing.
-- Candidates: 922808.
TABLE t0 ROWS 1 (c0 1 .. 2 KEY, c1 0 .. 30);
TABLE t1 ROWS 2 (c0 1 .. 2, c1 20 .. 80);
FOREIGN KEY t1 (c0) REFERENCES t0 (c0);
VIEW v2 AS SELECT b.c0, b.c1, ROUND(a.c1 * b.c1, 50) FROM t0 a, t1 b WHERE a.c0 = b.c0;
VIEW v3 AS
    SELECT a.c0, a.c1, b.c1, a.c2
    FROM v2 a, v2 b
    WHERE a.c0 = b.c0 AND a.c1 + 20 <= b.c1 AND a.c2 = b.c2 AND 50 <= a.c2;
GOAL POSITIVE v3;
