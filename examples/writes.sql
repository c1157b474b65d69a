-- weight 5
SELECT id, balance FROM account WHERE branch = 7 ORDER BY balance;
-- weight 2000
UPDATE account SET balance = balance + 10 WHERE id = 4711;
-- weight 20
INSERT INTO account VALUES (100001, 7, 0);
