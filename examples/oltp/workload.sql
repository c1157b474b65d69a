-- from a74faacd91ac7cd8
-- weight 2000
UPDATE pgbench_branches
SET bbalance = bbalance + ?
WHERE bid = ?;

-- from 348bee4e67e86ca6
-- weight 6000
SELECT abalance
FROM pgbench_accounts
WHERE aid = ?;

-- from 3315bfa60c2c07a3
-- weight 2000
UPDATE pgbench_accounts
SET abalance = abalance + ?
WHERE aid = ?;

-- from 3af462a553c75b51
-- weight 2000
UPDATE pgbench_tellers
SET tbalance = tbalance + ?
WHERE tid = ?;

-- from 7ff3bc0e2a3ff59f*0.25
-- weight 500
INSERT INTO pgbench_history (tid, bid, aid, delta, mtime)
VALUES (?, ?, ?, ?, ?);

-- from 1a8cc87b1652846c
-- weight 2
SELECT count(*)
FROM pgbench_branches;
