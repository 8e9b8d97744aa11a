-- Readable text of a rule file: a convenience, which proves nothing.
-- Candidates: 8928.
TABLE t0 ROWS 1 (c0 1 .. 3 KEY, c1 0 .. 31);
TABLE t1 ROWS 1 (c0 1 .. 3, c1 10 .. 40);
FOREIGN KEY t1 (c0) REFERENCES t0 (c0);
VIEW v2 AS SELECT b.c0, b.c1, a.c1 * b.c1 FROM t0 a, t1 b WHERE a.c0 = b.c0;
VIEW v3 AS SELECT a.c0, a.c1, ROUND(a.c2, 100) FROM v2 a;
VIEW v4 AS SELECT a.c0, a.c1, a.c2 FROM v3 a WHERE 1250 <= a.c2;
GOAL POSITIVE v4;
