-- Makes pgbench's history long and its accounts differ; the tables come from `pgbench -i --foreign-keys`.
INSERT INTO pgbench_history SELECT 1 + draw(i, 1, (SELECT count(*) FROM pgbench_tellers)), 1 + draw(i, 1, (SELECT count(*) FROM pgbench_tellers)) / 10,
    1 + draw_low(i, 2, (SELECT count(*) - 1 FROM pgbench_accounts)), draw(i, 3, 10001) - 5000,
    timestamp '2024-01-01' + i * interval '365 days' / (6000000 * :scale)::int FROM generate_series(1, (6000000 * :scale)::int) i;
UPDATE pgbench_accounts SET abalance = draw(aid, 4, 2000001) - 1000000;
VACUUM FULL pgbench_accounts;
