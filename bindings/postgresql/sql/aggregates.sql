-- Aggregates: sets and tables of columns.
\pset format unaligned
\pset tuples_only on
CREATE TABLE networks(kind text, n inet, v int);
INSERT INTO networks VALUES ('a', '10.0.1.0/24', 1), ('a', '10.0.0.0/24', 2), ('a', NULL, 3), ('b', 'fd00::1', 4),
    ('b', '192.0.2.7/24', NULL), ('c', NULL, NULL);
SELECT ipset_agg(n) FROM networks;
-- rows with NULL are left out; without rows the set is empty, and not NULL
SELECT kind, ipset_agg(n) FROM networks GROUP BY kind ORDER BY kind;
SELECT ipset_agg(n) IS NULL, ipset_agg(n) = '' FROM networks WHERE false;
SELECT ipset_agg(DISTINCT n) FROM networks;
SELECT ipset_agg(n) FILTER (WHERE kind = 'b') FROM networks;
-- as a window function: the set of the rows up to this one
SELECT ipset_agg(n) OVER (ORDER BY kind, n DESC NULLS FIRST) FROM networks WHERE kind < 'c';
SELECT ipset_agg(set_masklen(inet '10.0.0.0' + i, 32)) FROM generate_series(0, 65535) i;
-- a list that is longer than the text which the state keeps: 200,000 networks of 18 to 20 bytes
SELECT ipset_count(s, 4), (SELECT count(*) FROM ipset_ranges(s)) FROM
    (SELECT ipset_agg(inet '16.0.0.0' + 2 * i) s FROM generate_series(0, 199999) i) x;
-- the union of a column of sets
SELECT ipset_agg(s) FROM (VALUES (ipset '10.0.0.0/9, ::1'), ('10.128.0.0/9'), (NULL), ('')) v(s);
SELECT ipset_agg(s) = '' FROM (VALUES (NULL::ipset)) v(s);
SELECT ipset_agg(s) = (SELECT ipset_agg(n) FROM networks) FROM (SELECT ipset_agg(n) s FROM networks GROUP BY kind) x;
-- with a set whose image has more than 1 MB, and with sets that have it together
SELECT ipset_count(ipset_agg(s), 4) FROM (SELECT ipset_agg(inet '16.0.0.0' + 2 * i) s
    FROM generate_series(0, 199999) i UNION ALL SELECT '16.0.0.0/31') x;
SELECT ipset_count(ipset_agg(s), 4) FROM (SELECT ipset_agg(inet '16.0.0.0' + 2 * i) s
    FROM generate_series(0, 199999) i GROUP BY i % 100) x;
-- tables
SELECT iptable_agg(n, v) FROM networks;
SELECT iptable_agg(n, v) = '' FROM networks WHERE kind = 'c';
SELECT iptable_agg(n, v) FROM (VALUES (inet '10.1.2.3/8', 1), ('10.0.0.0/8', 1)) x(n, v);
SELECT iptable_agg(n, v) FROM (VALUES (inet '::1', 7), ('10.1.2.3/8', 20), ('10.0.0.0/8', -10), ('::2', 8)) x(n, v);
-- parallel workers compute the same
CREATE TABLE many AS SELECT set_masklen(inet '10.0.0.0' + 37 * i, 20 + i % 13) n, i % 1000 v, i % 13 k
    FROM generate_series(0, 29999) i;
ALTER TABLE many SET (parallel_workers = 2);
CREATE TABLE results(how text, s ipset, t iptable);
INSERT INTO results SELECT 'serial', ipset_agg(n), (SELECT iptable_agg(n, 5) FROM many) FROM many;
SET parallel_setup_cost = 0;
SET parallel_tuple_cost = 0;
SET min_parallel_table_scan_size = 0;
SET max_parallel_workers_per_gather = 2;
EXPLAIN (COSTS OFF) SELECT ipset_agg(n), iptable_agg(n, 5) FROM many;
CREATE TABLE parallel_results AS SELECT ipset_agg(n) s, iptable_agg(n, 5) t FROM many;
SELECT p.s = r.s, p.t = r.t, ipset_count(p.s, 4) > 65536 FROM parallel_results p, results r;
CREATE TABLE parts AS SELECT k, ipset_agg(n) s FROM many GROUP BY k;
ALTER TABLE parts SET (parallel_workers = 2);
EXPLAIN (COSTS OFF) SELECT ipset_agg(s) FROM parts;
SELECT (SELECT ipset_agg(s) FROM parts) = r.s FROM results r;
SELECT count(*) FROM many m, parallel_results p WHERE NOT p.s @> m.n OR longest_match(p.t, m.n) IS DISTINCT FROM 5;
DROP TABLE networks, many, results, parallel_results, parts;
