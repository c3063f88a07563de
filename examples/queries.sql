-- Ten questions that an auditor asks of a register's file, with sqlite3:
--     sqlite3 -cmd '.parameter set :ceremony 61' copy.db < examples/queries.sql
-- Without the parameter, questions 2, 4 and 6 are about the ceremony that was opened last. copy.db is a copy of the
-- file that was made while no kcr had it open, with its log if there was one.
-- The tables contain moments as seconds and days as days since 1970-01-01, UTC. The state of a ceremony is 0 (planned),
-- 1 (open) or 2 (closed), of a step 0 (open), 1 (signed) or 2 (passed over), of a safe 0 (shut) or 1 (open).
.mode list
.separator ' | '
.headers on
.nullvalue -

CREATE TEMP TABLE asked AS
SELECT coalesce(:ceremony, (SELECT number FROM ceremonies WHERE opened IS NOT NULL ORDER BY opened DESC LIMIT 1))
       AS ceremony;

.print The ceremony of questions 2, 4 and 6
SELECT ceremony, coalesce((SELECT facility || ' ' || date(day * 86400, 'unixepoch') FROM ceremonies
                           WHERE number = asked.ceremony), 'not in this register') AS facility_and_day
FROM asked;

.print
.print 1. Which ceremonies are there, and how long did each take?
SELECT number, facility, date(day * 86400, 'unixepoch') AS day, state,
       strftime('%Y-%m-%dT%H:%M:%SZ', opened, 'unixepoch') AS opened,
       strftime('%Y-%m-%dT%H:%M:%SZ', closed, 'unixepoch') AS closed, (closed - opened) / 60 AS minutes,
       (SELECT count(*) FROM steps WHERE ceremony = number) AS steps,
       (SELECT count(*) FROM exceptions WHERE ceremony = number) AS exceptions
FROM ceremonies ORDER BY number;

.print
.print 2. Who was in the room, for how many minutes, and sat in how many steps?
SELECT who, name, count(*) AS stays, sum(until - since) / 60 AS minutes,
       strftime('%Y-%m-%dT%H:%M:%SZ', min(since), 'unixepoch') AS first_in,
       strftime('%Y-%m-%dT%H:%M:%SZ', max(until), 'unixepoch') AS last_out,
       (SELECT count(*) FROM seatings WHERE seatings.who = stays.who AND seatings.ceremony = stays.ceremony) AS steps
FROM stays JOIN people USING (who) JOIN asked USING (ceremony) GROUP BY who ORDER BY steps DESC, who;

.print
.print 3. Which exceptions were there, and which activity did one pass over?
SELECT e.ceremony, e.exception, strftime('%Y-%m-%dT%H:%M:%SZ', e.at, 'unixepoch') AS at, e.passed, s.activity, e.text
FROM exceptions AS e LEFT JOIN steps AS s ON s.ceremony = e.ceremony AND s.step = e.passed
ORDER BY e.ceremony, e.exception;

.print
.print 4. Which steps came longest after the step before?
SELECT step, strftime('%Y-%m-%dT%H:%M:%SZ', at, 'unixepoch') AS at, seconds, activity
FROM (SELECT step, at, activity, at - lag(at) OVER (ORDER BY step) AS seconds FROM steps JOIN asked USING (ceremony))
ORDER BY seconds DESC, step LIMIT 5;

.print
.print 5. Who sat in a step without being in the room? (no row: nobody)
SELECT t.ceremony, t.step, t.seat, t.who
FROM seatings AS t JOIN steps AS s ON s.ceremony = t.ceremony AND s.step = t.step
WHERE NOT EXISTS (SELECT 1 FROM stays WHERE stays.who = t.who AND stays.ceremony = t.ceremony
                  AND stays.since <= s.at AND (stays.until IS NULL OR stays.until > s.at));

.print
.print 6. What was done with each bag, command by command?
WITH starts AS (SELECT '/ceremonies/' || ceremony || '/bags/' AS start FROM asked),
     parts AS (SELECT accepted, substr(command, length(start) + 1) AS tail FROM keys JOIN starts
               ON command GLOB start || '*'),
     acts AS (SELECT accepted, substr(tail, 1, instr(tail, '/') - 1) AS bag, substr(tail, instr(tail, '/') + 1) AS act
              FROM parts)
SELECT bag, accepted, substr(act, 1, instr(act, char(10)) - 1) AS act, substr(act, -20) AS at,
       substr(act, instr(act, char(10)) + 1, max(0, length(act) - instr(act, char(10)) - 21)) AS items_or_spot
FROM acts ORDER BY bag, accepted;

.print
.print 7. Where is every item, and who holds the place of its box by the last entry?
SELECT i.code, i.serial AS bag, coalesce(b.spot, 'loose ' || i.facility) AS spot, x.place,
       (SELECT who FROM appointments AS a WHERE a.place = x.place AND a.until IS NULL) AS holder
FROM items AS i LEFT JOIN bags AS b ON b.serial = i.serial
     LEFT JOIN boxes AS x ON b.spot = 'box ' || x.box || ' ' || x.facility
ORDER BY i.code;

.print
.print 8. Who is trained for what, and what was withdrawn?
SELECT t.who, t.role, date(t.since * 86400, 'unixepoch') AS since, date(t.until * 86400, 'unixepoch') AS until,
       date(w.day * 86400, 'unixepoch') AS withdrawn
FROM trainings AS t
     LEFT JOIN withdrawals AS w ON w.who = t.who AND w.role = t.role AND w.since = t.since AND w.until = t.until
ORDER BY t.who, t.role;

.print
.print 9. Who held which place, since which day, and from which day on no more?
SELECT place, who, date(since * 86400, 'unixepoch') AS since, date(until * 86400, 'unixepoch') AS until
FROM appointments ORDER BY place, appointments.since;

.print
.print 10. Are the accepted commands numbered without a gap, and how many are there of each kind?
SELECT count(*) AS commands, max(accepted) AS last, iif(count(*) = coalesce(max(accepted), 0), 'no', 'yes') AS gap
FROM keys;
WITH kinds (kind, pattern) AS (VALUES
    ('person', '/people'), ('training', '/people/*/roles'), ('withdrawal', '/people/*/withdrawals'),
    ('place', '/custodians*'), ('box', '/boxes'), ('item', '/items'), ('plan', '/ceremonies'),
    ('opening', '/ceremonies/*/opening'), ('sheet', '/ceremonies/*/sheet'), ('signature', '/ceremonies/*/steps/*'),
    ('exception', '/ceremonies/*/exceptions'), ('safe', '/ceremonies/*/safes/*'), ('bag', '/ceremonies/*/bags/*'),
    ('closing', '/ceremonies/*/closing')),
     paths AS (SELECT accepted, substr(command, 1, instr(command, char(10)) - 1) AS path FROM keys)
SELECT kind, count(*) AS commands, min(accepted) AS first, max(accepted) AS last
FROM kinds JOIN paths ON path GLOB pattern GROUP BY kind ORDER BY first;
