-- Readable text of a rule file: a convenience, which proves nothing.
-- Candidates: 941192.
TABLE t0 ROWS 3 (c0 1 .. 98);
VIEW v1 AS SELECT SUM(ROUND(a.c0, 5)) FROM t0 a GROUP BY () HAVING SUM(a.c0) = 100;
VIEW v2 AS SELECT a.c0 FROM v1 a WHERE a.c0 = 100;
GOAL NEGATIVE v2;
