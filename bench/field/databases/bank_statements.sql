-- table, 200 calls: pgbench's first update
UPDATE pgbench_accounts SET abalance = abalance + {delta:1-5000} WHERE aid = {account:1-10000000s};
-- tuning, 200 calls: pgbench's select
SELECT abalance FROM pgbench_accounts WHERE aid = {account:1-10000000s};
-- table, 200 calls: pgbench's second update
UPDATE pgbench_tellers SET tbalance = tbalance + {delta:1-5000} WHERE tid = {teller:1-1000s};
-- tuning, 200 calls: pgbench's third update
UPDATE pgbench_branches SET bbalance = bbalance + {delta:1-5000} WHERE bid = {branch:1-100s};
-- table, 200 calls: pgbench's insert
INSERT INTO pgbench_history (tid, bid, aid, delta, mtime) VALUES ({teller:1-1000s}, {branch:1-100s}, {account:1-10000000s}, {delta:1-5000}, CURRENT_TIMESTAMP);
-- tuning, 60 calls: the movements of an account
SELECT mtime, delta FROM pgbench_history WHERE aid = {account:1-10000000s} ORDER BY mtime DESC LIMIT 20;
-- table, 50 calls: what moved on an account
SELECT sum(delta), count(*) FROM pgbench_history WHERE aid = {account:1-10000000s};
-- tuning, 15 calls: what a teller did in a week
SELECT aid, delta, mtime FROM pgbench_history WHERE tid = {teller:1-1000s} AND mtime >= '{day:2024-01-01..2024-11-01}' AND mtime < '{day+7}';
-- table, 15 calls: what a branch moved on a day
SELECT sum(delta) FROM pgbench_history WHERE bid = {branch:1-100s} AND mtime >= '{day:2024-01-01..2024-11-01}' AND mtime < '{day+1}';
-- tuning, 10 calls: the largest accounts of a branch
SELECT aid, abalance FROM pgbench_accounts WHERE bid = {branch:1-100s} ORDER BY abalance DESC LIMIT 10;
-- table, 10 calls: accounts that are far below zero
SELECT aid, bid, abalance FROM pgbench_accounts WHERE abalance < -{delta:997000-999900};
-- table, 5 calls: the largest movements of some days, with what the accounts hold
SELECT h.aid, h.delta, a.abalance FROM pgbench_history h JOIN pgbench_accounts a ON a.aid = h.aid WHERE h.mtime BETWEEN '{day:2024-01-01..2024-11-01}' AND '{day+3}' AND h.delta > 4900;
-- tuning, 3 calls: the sums of the branches
SELECT b.bid, b.bbalance, sum(a.abalance) FROM pgbench_branches b JOIN pgbench_accounts a ON a.bid = b.bid GROUP BY b.bid, b.bbalance;
