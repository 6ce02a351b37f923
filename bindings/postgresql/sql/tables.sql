-- Tables of routes: text, longest match, order. The expected values follow from the definition of the longest match.
\pset format unaligned
\pset tuples_only on
-- text: the routes in order, IPv4 first, shorter networks before longer ones
SELECT ''::iptable;
SELECT '10.1.0.0/16 2,10.0.0.0/8 1'::iptable;
SELECT 'fd00::/8 -1, 10.1.2.3/8 2147483647, 192.0.2.1 -2147483648'::iptable;
SELECT E' ::/0\t7 ,\n 0.0.0.0/0   7 '::iptable;
SELECT '10.0.0.0/8 1, 10.0.0.0/8 1, 10.7.7.7/8 1'::iptable;
-- the longest match of an address
CREATE TABLE tables(t iptable);
INSERT INTO tables VALUES ('10.0.0.0/8 1, 10.1.0.0/16 2, 10.1.2.0/24 3, fd00::/8 4, fd00:1::/32 5, ::/0 6');
SELECT longest_match(t, '10.0.0.1'), longest_match(t, '10.1.0.1'), longest_match(t, '10.1.2.3'),
    longest_match(t, '11.0.0.1') IS NULL, longest_match(t, '0.0.0.0') IS NULL FROM tables;
SELECT longest_match(t, 'fd00::1'), longest_match(t, 'fd00:1::1'), longest_match(t, 'fe00::1'),
    longest_match(t, '::ffff:10.1.2.3') FROM tables;
SELECT longest_route(t, '10.0.0.1'), longest_route(t, '10.1.2.3'), longest_route(t, '11.0.0.1') IS NULL,
    longest_route(t, 'fd00:1::1'), longest_route(t, '::1') FROM tables;
-- the longest match of a network: the longest route that contains all of it
SELECT longest_match(t, '10.1.2.0/24'), longest_match(t, '10.1.2.3/23'), longest_match(t, '10.1.0.0/16'),
    longest_match(t, '10.0.0.0/15'), longest_match(t, '10.0.0.0/7') IS NULL FROM tables;
SELECT longest_route(t, '10.1.2.128/25'), longest_route(t, '10.1.2.0/23'), longest_route(t, '10.0.0.0/8'),
    longest_route(t, '8.0.0.0/6') IS NULL, longest_route(t, 'fd00:1::/31'), longest_route(t, 'fc00::/7') FROM tables;
SELECT longest_route('10.0.0.0/9 1, 10.128.0.0/9 2', '10.0.0.0/8') IS NULL, longest_match('', '::1') IS NULL,
    longest_route('', '::/0') IS NULL, pg_typeof(longest_route('::/0 1', '::1'));
-- a value above 2147483647 of another program is a negative number here
SELECT longest_match(t, '::1'), longest_match(t, '::1')::bigint & 4294967295,
    encode(iptable_send(t), 'hex') LIKE '%ffffffff%' FROM (VALUES (iptable '::/0 -1')) v(t);
-- NULL
SELECT longest_match(NULL, '::1') IS NULL, longest_match('', NULL) IS NULL, longest_route(NULL, '::1') IS NULL;
-- rows
SELECT * FROM iptable_routes('fd00::/8 3, 10.1.0.0/16 2, 10.0.0.0/8 -1');
SELECT count(*), sum(value), count(DISTINCT network), max(network) FROM iptable_routes((SELECT
    iptable_agg(inet '10.0.0.0' + 2 * i, i) FROM generate_series(0, 599) i));
SELECT (SELECT count(*) FROM iptable_routes('')), (SELECT count(*) FROM iptable_routes(NULL));
-- the image as bytea, and back
SELECT count(*) FROM tables WHERE t::bytea::iptable = t AND NULL::bytea::iptable IS NULL;
-- equality and order: of the tables, not of their texts
SELECT iptable '10.0.0.0/8 1, ::/0 2' = '::/0 2, 10.0.0.0/8 1', iptable '::/0 1' = '::/0 2',
    iptable '::/0 1' <> '::/1 1';
INSERT INTO tables VALUES (''), ('::/0 1'), (' ::/0 1');
SELECT count(DISTINCT t), count(*) FROM tables;
SELECT count(*) FROM tables a JOIN tables b ON a.t = b.t;
DROP TABLE tables;
