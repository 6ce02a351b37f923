-- Values that are stored out of line: the images that a call keeps, and updates between and within statements.
\pset format unaligned
\pset tuples_only on
CREATE TABLE lists(id int PRIMARY KEY, s ipset, t iptable);
-- list i has every second address from 10.i.0.0 on, 2000 of them: 16 kB; table i gives each of them the value i
INSERT INTO lists SELECT l, ipset_agg(a), iptable_agg(a, l)
    FROM (SELECT l, inet '10.0.0.0' + 65536 * l + 2 * i a FROM generate_series(0, 9) l, generate_series(0, 1999) i) x
    GROUP BY l;
SELECT min(pg_column_size(s)) > 2000, min(pg_column_size(t)) > 2000,
    pg_relation_size((SELECT reltoastrelid FROM pg_class WHERE oid = 'lists'::regclass)) > 100000 FROM lists;
CREATE TABLE log AS SELECT i % 10 id, inet '10.0.0.0' + 65536 * (i % 10) + i / 10 a FROM generate_series(0, 9999) i;
SHOW ipset.cache_size;
-- half of the rows lie in the list of their number, and no row lies in another list
SELECT count(*) FROM log, lists WHERE s @> a;
SELECT count(*), sum(longest_match(t, a)) FROM log JOIN lists USING (id);
-- the same with a cache that has room for one image, in a join that asks for the images in turn
SET ipset.cache_size = 0;
SELECT count(*) FROM log JOIN lists USING (id) WHERE s @> a;
SELECT count(*), sum(longest_match(t, a)) FROM log JOIN lists USING (id);
SELECT count(*) FROM lists x, lists y WHERE x.s && y.s;
SELECT count(*) FROM lists x, lists y WHERE x.s @> y.s AND y.s <@ x.s AND x.s + y.s = x.s;
RESET ipset.cache_size;
SELECT count(*) FROM lists x, lists y WHERE x.s && y.s;
SELECT count(*) FROM lists x, lists y WHERE x.s @> y.s AND y.s <@ x.s AND x.s + y.s = x.s;
SET ipset.cache_size = '-1kB';
-- an update between two executions of a prepared statement
PREPARE question AS SELECT s @> inet '10.3.0.1', s @> inet '10.3.0.0' FROM lists WHERE id = 3;
EXECUTE question;
UPDATE lists SET s = s + '10.3.0.1' - '10.3.0.0' WHERE id = 3;
EXECUTE question;
-- an update within a transaction, between two questions of one expression in PL/pgSQL
CREATE FUNCTION ask_twice(which int) RETURNS text LANGUAGE plpgsql AS $$
DECLARE
    list ipset;
    answers text := '';
BEGIN
    FOR i IN 1 .. 4 LOOP
        SELECT s INTO list FROM lists WHERE id = which;
        answers := answers || (list @> inet '10.4.0.1') || ' ';
        IF i % 2 = 1 THEN
            UPDATE lists SET s = s + '10.4.0.1' WHERE id = which;
        ELSE
            UPDATE lists SET s = s - '10.4.0.1' WHERE id = which;
        END IF;
    END LOOP;
    RETURN answers;
END $$;
SELECT ask_twice(4);
SELECT ask_twice(4), ask_twice(4);
-- an update that another cursor does not see
BEGIN;
DECLARE rows CURSOR FOR SELECT s @> inet '10.5.0.1' FROM lists, generate_series(1, 2) WHERE id = 5;
FETCH rows;
UPDATE lists SET s = s + '10.5.0.1' WHERE id = 5;
FETCH rows;
ROLLBACK;
-- an index of type hash takes any image, and an index of type btree only short ones
CREATE INDEX lists_by_hash ON lists USING hash (s);
SET enable_seqscan = off;
SELECT count(*) FROM lists x JOIN lists y ON x.s = y.s;
RESET enable_seqscan;
DROP INDEX lists_by_hash;
-- values that are not stored out of line
SELECT count(*) FROM (SELECT ipset_agg(a) s FROM log) x, log WHERE s @> a;
WITH small(s) AS MATERIALIZED (VALUES (ipset '10.0.0.0/16'), ('10.1.0.0/16'))
SELECT count(*) FROM small, log WHERE s @> a;
CREATE TABLE compressed(s ipset);
ALTER TABLE compressed ALTER s SET STORAGE extended;
INSERT INTO compressed SELECT s FROM lists;
INSERT INTO compressed VALUES ('10.0.0.0/30'), ('');
SELECT count(*) FROM compressed, log WHERE s @> a AND id = 0;
DROP TABLE compressed, lists, log;
DROP FUNCTION ask_twice;
