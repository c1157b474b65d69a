-- A forum with articles: members, forums with topics and posts, tags, votes, notices, sessions.
CREATE TABLE member (id int PRIMARY KEY, name text NOT NULL, email text NOT NULL, joined date NOT NULL, seen timestamp, points int NOT NULL,
    role text NOT NULL, biography text NOT NULL);
CREATE TABLE forum (id int PRIMARY KEY, parent_id int REFERENCES forum, slug text NOT NULL, title text NOT NULL);
CREATE TABLE topic (id int PRIMARY KEY, forum_id int NOT NULL REFERENCES forum, member_id int NOT NULL REFERENCES member, title text NOT NULL,
    slug text NOT NULL, state text NOT NULL, is_pinned boolean NOT NULL, views int NOT NULL, replies int NOT NULL, created timestamp NOT NULL,
    bumped timestamp NOT NULL);
CREATE TABLE post (id int PRIMARY KEY, topic_id int NOT NULL REFERENCES topic, member_id int NOT NULL REFERENCES member,
    answers_id int REFERENCES post, place int NOT NULL, body text NOT NULL, state text NOT NULL, score int NOT NULL, created timestamp NOT NULL,
    edited timestamp);
CREATE TABLE tag (id int PRIMARY KEY, name text NOT NULL, uses int NOT NULL);
CREATE TABLE topic_tag (topic_id int NOT NULL REFERENCES topic, tag_id int NOT NULL REFERENCES tag, PRIMARY KEY (topic_id, tag_id));
CREATE TABLE vote (member_id int NOT NULL REFERENCES member, post_id int NOT NULL REFERENCES post, value int NOT NULL, cast_on date NOT NULL,
    PRIMARY KEY (member_id, post_id));
CREATE TABLE notice (id int PRIMARY KEY, member_id int NOT NULL REFERENCES member, post_id int NOT NULL REFERENCES post, kind text NOT NULL,
    is_read boolean NOT NULL, created timestamp NOT NULL);
CREATE TABLE session (token text PRIMARY KEY, member_id int NOT NULL REFERENCES member, address text NOT NULL, expires timestamp NOT NULL);
CREATE TABLE report (id int PRIMARY KEY, post_id int NOT NULL REFERENCES post, member_id int NOT NULL REFERENCES member, reason text NOT NULL,
    handled timestamp);
INSERT INTO member SELECT i, 'member' || i, 'm' || i || '@example.org', date '2015-01-01' + draw(i, 1, 3600),
    timestamp '2024-12-31' - make_interval(mins => draw_low(i, 2, 3000000)), draw_low(i, 3, 20000),
    CASE WHEN i % 2000 = 1 THEN 'admin' WHEN i % 300 = 2 THEN 'moderator' ELSE 'member' END, words(i, 120)
    FROM generate_series(1, (100000 * :scale)::int) i;
INSERT INTO forum SELECT i, CASE WHEN i > 6 THEN 1 + i % 6 END, 'forum-' || i, 'Forum ' || i FROM generate_series(1, 40) i;
INSERT INTO topic SELECT i, 1 + draw_low(i, 11, 39), 1 + draw_low(i, 12, (100000 * :scale)::int - 1), words(i, 50), 'topic-' || i,
    CASE WHEN draw(i, 13, 40) = 0 THEN 'hidden' WHEN draw(i, 14, 15) = 0 THEN 'closed' ELSE 'open' END, draw(i, 15, 400) = 0,
    draw_low(i, 16, 50000), 0, at, at + make_interval(hours => draw_low(i, 17, 9000))
    FROM (SELECT i, timestamp '2018-01-01' + i * interval '2550 days' / (150000 * :scale)::int AS at
        FROM generate_series(1, (150000 * :scale)::int) i) AS made;
INSERT INTO post SELECT i, 1 + draw_low(i, 21, (150000 * :scale)::int - 1), 1 + draw_low(i, 22, (100000 * :scale)::int - 1),
    CASE WHEN i > 100 AND draw(i, 23, 3) = 0 THEN i - 1 - draw(i, 24, 99) END, draw(i, 25, 200), words(i, 180),
    CASE WHEN draw(i, 26, 60) = 0 THEN 'deleted' WHEN draw(i, 27, 200) = 0 THEN 'waiting' ELSE 'shown' END, draw_low(i, 28, 90) - 3,
    timestamp '2018-01-01' + i * interval '2555 days' / (900000 * :scale)::int, NULL
    FROM generate_series(1, (900000 * :scale)::int) i;
UPDATE topic SET replies = number FROM (SELECT topic_id, count(*) AS number FROM post GROUP BY topic_id) AS counts WHERE topic_id = id;
INSERT INTO tag SELECT i, 'tag' || i, draw_low(i, 31, 9000) FROM generate_series(1, 800) i;
INSERT INTO topic_tag SELECT t, 1 + draw_low(4 * t + n, 41, 799) FROM generate_series(1, (150000 * :scale)::int) t, generate_series(0, 2) n
    ON CONFLICT DO NOTHING;
INSERT INTO vote SELECT 1 + draw_low(i, 51, (100000 * :scale)::int - 1), 1 + draw(i, 52, (900000 * :scale)::int), CASE WHEN draw(i, 53, 6) = 0 THEN -1 ELSE 1 END,
    date '2018-01-01' + draw(i, 54, 2555) FROM generate_series(1, (1500000 * :scale)::int) i ON CONFLICT DO NOTHING;
INSERT INTO notice SELECT i, 1 + draw_low(i, 61, (100000 * :scale)::int - 1), 1 + draw(i, 62, (900000 * :scale)::int),
    (ARRAY['reply', 'reply', 'mention', 'vote'])[1 + draw(i, 63, 4)], draw(i, 64, 12) > 0,
    timestamp '2018-01-01' + i * interval '2555 days' / (800000 * :scale)::int FROM generate_series(1, (800000 * :scale)::int) i;
INSERT INTO session SELECT md5(i::text), 1 + draw(i, 71, (100000 * :scale)::int), '10.' || draw(i, 72, 256) || '.' || draw(i, 73, 256) || '.1',
    timestamp '2024-12-31' + make_interval(mins => draw(i, 74, 90000) - 45000) FROM generate_series(1, (120000 * :scale)::int) i;
INSERT INTO report SELECT i, 1 + draw(i, 81, (900000 * :scale)::int), 1 + draw(i, 82, (100000 * :scale)::int), words(i, 40),
    CASE WHEN draw(i, 83, 10) > 0 THEN timestamp '2024-01-01' + make_interval(hours => draw(i, 84, 8000)) END
    FROM generate_series(1, (20000 * :scale)::int) i;
