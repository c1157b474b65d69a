-- weight 10
SELECT c FROM t ORDER BY c;
-- weight 11
SELECT d, e FROM v ORDER BY d, e;
