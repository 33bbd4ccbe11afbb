-- The log of a harbour as a full-text table: run it in this folder, as `ft4sh < search.sql`.
CREATE VIRTUAL TABLE log USING fts4(number, date, subject, body, notindexed=number, notindexed=date);
.import --csv --skip 1 harbour.csv log
.print entries
SELECT count(*) FROM log;

.print
.print the lifeboat, or a distress signal
SELECT date, subject FROM log WHERE log MATCH 'lifeboat OR "distress signal"';

.print
.print storms with the sea near the breakwater, but not with a storm signal
SELECT date, subject FROM log WHERE log MATCH 'subject:storm sea NEAR/5 breakwater NOT "storm signal"';

.print
.print entries with Ærø, the first three of them, and how many at the coal quay
SELECT date, subject FROM log WHERE body MATCH 'Ærø' LIMIT 3;
SELECT count(*) FROM log WHERE body MATCH 'Ærø "coal quay"';

.print
.print entries whose subject begins with Fram, with the places of the words
SELECT number, offsets(log) FROM log WHERE log MATCH 'subject:^fram "outer buoy"';

.print
.print fog, as one word or in a longer one, in entries on the lighthouse
.mode column
.headers on
SELECT docid, date, subject FROM log WHERE log MATCH 'subject:light* fog*' LIMIT 4;
.mode list
.headers off

.print
.print the entry of 1 May, before and after it is corrected
SELECT body FROM log WHERE docid = 62;
UPDATE log SET subject = 'Seal', body = 'A seal slept on the slip until four in the afternoon.' WHERE docid = 62;
SELECT body FROM log WHERE log MATCH 'seal afternoon';
SELECT count(*) FROM log WHERE log MATCH 'seal noon';

.print
.print quiet days are left out
SELECT count(*) FROM log WHERE subject MATCH 'quiet';
DELETE FROM log WHERE subject MATCH 'quiet';
SELECT count(*) FROM log WHERE subject MATCH 'quiet';
SELECT count(*) FROM log;

.print
.print the index is that of the entries
INSERT INTO log(log) VALUES('integrity-check');
INSERT INTO log(date, subject, body) VALUES('1931-10-27', 'Office', 'The books of the year were closed.');
SELECT docid, date FROM log WHERE log MATCH 'books "the year"';
