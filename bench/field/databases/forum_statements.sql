-- tuning, 80 calls: a page of a forum
SELECT t.id, t.title, t.replies, t.bumped, m.name FROM topic t JOIN member m ON m.id = t.member_id WHERE t.forum_id = {forum:1-40} AND t.state <> 'hidden' ORDER BY t.is_pinned DESC, t.bumped DESC LIMIT 30;
-- table, 120 calls: a page of a topic
SELECT p.id, p.body, p.score, p.created, m.name, m.points FROM post p JOIN member m ON m.id = p.member_id WHERE p.topic_id = {topic:1-150000s} AND p.state = 'shown' ORDER BY p.created LIMIT 25;
-- tuning, 60 calls: a topic by its address
SELECT id, forum_id, title, state, views FROM topic WHERE slug = 'topic-{topic:1-150000s}';
-- table, 60 calls: the latest topics of a forum
SELECT id, title, bumped FROM topic WHERE forum_id = {forum:1-40} ORDER BY bumped DESC LIMIT 10;
-- table, 100 calls: notices that weren't read
SELECT count(*) FROM notice WHERE member_id = {member:1-100000s} AND NOT is_read;
-- tuning, 40 calls: the latest notices
SELECT n.id, n.kind, n.created, p.topic_id FROM notice n JOIN post p ON p.id = n.post_id WHERE n.member_id = {member:1-100000s} ORDER BY n.created DESC LIMIT 20;
-- table, 40 calls: a member's latest posts
SELECT id, topic_id, created, score FROM post WHERE member_id = {member:1-100000s} AND state = 'shown' ORDER BY created DESC LIMIT 15;
-- tuning, 30 calls: how many posts a member has
SELECT count(*), sum(score) FROM post WHERE member_id = {member:1-100000s} AND state = 'shown';
-- table, 30 calls: a member by name
SELECT id, name, points, role, joined FROM member WHERE name = 'member{member:1-100000s}';
-- tuning, 30 calls: a member by address
SELECT id, name FROM member WHERE email = 'm{member:1-100000s}@example.org' AND role <> 'banned';
-- table, 20 calls: the latest posts of all
SELECT p.id, p.topic_id, t.title, p.created FROM post p JOIN topic t ON t.id = p.topic_id WHERE p.state = 'shown' ORDER BY p.created DESC LIMIT 20;
-- tuning, 25 calls: topics of a tag
SELECT t.id, t.title, t.bumped FROM topic t JOIN topic_tag x ON x.topic_id = t.id WHERE x.tag_id = {tag:1-800} AND t.state = 'open' ORDER BY t.bumped DESC LIMIT 20;
-- table, 20 calls: the tags of a topic
SELECT g.name FROM tag g JOIN topic_tag x ON x.tag_id = g.id WHERE x.topic_id = {topic:1-150000s} ORDER BY g.uses DESC;
-- tuning, 25 calls: votes for a post
SELECT sum(value), count(*) FROM vote WHERE post_id = {post:1-900000s};
-- table, 10 calls: votes for the posts of a member
SELECT sum(v.value) FROM vote v JOIN post p ON p.id = v.post_id WHERE p.member_id = {member:1-100000s} AND v.cast_on >= '{day:2023-01-01..2024-10-01}';
-- tuning, 8 calls: what is much answered this month
SELECT t.id, t.title, count(*) AS posts FROM post p JOIN topic t ON t.id = p.topic_id WHERE p.created >= '{day:2018-06-01..2024-11-01}' AND p.created < '{day+30}' GROUP BY t.id, t.title ORDER BY posts DESC LIMIT 10;
-- table, 15 calls: posts that wait for a moderator
SELECT p.id, p.topic_id, p.created, m.name FROM post p JOIN member m ON m.id = p.member_id WHERE p.state = 'waiting' ORDER BY p.created LIMIT 30;
-- tuning, 10 calls: reports that nobody handled
SELECT r.id, r.reason, p.topic_id FROM report r JOIN post p ON p.id = r.post_id WHERE r.handled IS NULL ORDER BY r.id;
-- table, 30 calls: answers to a post
SELECT id, member_id, created FROM post WHERE answers_id = {post:1-900000s};
-- tuning, 6 calls: members who joined in a span and have posted
SELECT m.id, m.name, count(p.id) FROM member m JOIN post p ON p.member_id = m.id WHERE m.joined BETWEEN '{day:2015-01-01..2024-10-01}' AND '{day+20}' GROUP BY m.id, m.name HAVING count(p.id) > 2;
-- table, 5 calls: topics of a member that others answered
SELECT t.id, t.title FROM topic t WHERE t.member_id = {member:1-100000s} AND EXISTS (SELECT 1 FROM post p WHERE p.topic_id = t.id AND p.member_id <> {member});
-- tuning, 4 calls: members by what they did in a span
SELECT m.role, count(*) FROM member m WHERE m.seen BETWEEN '{day:2023-01-01..2024-11-01}' AND '{day+30}' AND EXISTS (SELECT 1 FROM vote v WHERE v.member_id = m.id) GROUP BY m.role;
-- table, 50 calls: a new post
INSERT INTO post (id, topic_id, member_id, place, body, state, score, created) VALUES ({post:10000000-90000000}, {topic:1-150000s}, {member:1-100000s}, 1, 'some words', 'shown', 0, '2024-12-31 12:00:00');
-- tuning, 50 calls: a vote
INSERT INTO vote (member_id, post_id, value, cast_on) VALUES ({member:1-100000s}, {post:1-900000s}, 1, '2024-12-31') ON CONFLICT DO NOTHING;
-- table, 30 calls: a notice is read
UPDATE notice SET is_read = true WHERE member_id = {member:1-100000s} AND NOT is_read;
-- tuning, 60 calls: a topic is looked at
UPDATE topic SET views = views + 1 WHERE id = {topic:1-150000s};
-- table, 5 calls: sessions that ended
DELETE FROM session WHERE expires < '2024-12-01 {hour:10-20}:00:00';
-- tuning, 10 calls: a member's sessions go
DELETE FROM session WHERE member_id = {member:1-100000s};
