-- Sets: text, members, operations, order, rows. The expected values follow from the definitions of sets of addresses.
\pset format unaligned
\pset tuples_only on
CREATE EXTENSION ipset;
-- text: the fewest networks, IPv4 first
SELECT ''::ipset;
SELECT '  '::ipset;
SELECT '10.0.0.0/8'::ipset;
SELECT '10.0.1.0/24,10.0.0.0/24'::ipset;
SELECT 'fd00::/8, 10.1.2.3/8, 192.0.2.1'::ipset;
SELECT '10.0.0.0-10.0.0.2, ::1 - ::2'::ipset;
SELECT E' 10.0.0.0/9 ,\n\t10.128.0.0/255.128.0.0\r\n'::ipset;
SELECT '0.0.0.0/0, ::/0'::ipset;
SELECT '::ffff:10.0.0.1'::ipset;
-- members: an address, and all addresses of a network
SELECT s @> inet '10.0.0.0', s @> inet '10.0.0.5', s @> inet '10.0.0.6', inet '10.0.0.5' <@ s
FROM (VALUES (ipset '10.0.0.0-10.0.0.5')) v(s);
SELECT s @> inet '10.0.0.0/30', s @> inet '10.0.0.4/31', s @> inet '10.0.0.7/29', s @> cidr '10.0.0.0/30'
FROM (VALUES (ipset '10.0.0.0-10.0.0.5')) v(s);
SELECT s @> inet 'fd00::1', s @> inet 'fd01::', s @> inet 'fd00::/16', s @> inet '::ffff:10.0.0.1', s @> inet '10.0.0.1'
FROM (VALUES (ipset 'fd00::/16, 10.0.0.0/8')) v(s);
SELECT s @> inet '0.0.0.0', s @> inet '255.255.255.255', s @> inet '0.0.0.0/0', s @> inet '::/0', s @> inet '::'
FROM (VALUES (ipset '0.0.0.0/0')) v(s);
SELECT '' @> inet '10.0.0.1', ipset '' @> inet '::/0';
-- NULL
SELECT (NULL::ipset @> inet '::1') IS NULL, (ipset '::1' @> NULL::inet) IS NULL, (ipset '::1' + NULL) IS NULL,
    (~ NULL::ipset) IS NULL, ipset_count(NULL, 4) IS NULL, ipset_count('', NULL) IS NULL;
SELECT (SELECT count(*) FROM ipset_networks(NULL)), (SELECT count(*) FROM ipset_ranges(NULL));
-- subsets and common addresses
SELECT a @> b, b @> a, a <@ b, b <@ a, a && b, b && a, a @> a, a && ''
FROM (VALUES (ipset '10.0.0.0/8, fd00::/8', ipset '10.1.0.0-10.2.0.7, fd00::1')) v(a, b);
SELECT ipset '10.0.0.0/25' && '10.0.0.128/25', ipset '10.0.0.0/25' && '10.0.0.127-10.0.0.128', ipset '' && '',
    ipset '' <@ '', ipset '' <@ '::1', ipset '::' && '0.0.0.0';
-- union, intersection, difference, complement
SELECT a + b, a * b, a - b, b - a FROM (VALUES (ipset '10.0.0.0/24', ipset '10.0.0.128/25, 10.0.1.0/24')) v(a, b);
SELECT a + b = b + a, a * b = b * a, (a - b) + (a * b) = a, ~ ~ a = a, a * ~ a = '', a + ~ a = '0.0.0.0/0, ::/0'
FROM (VALUES (ipset '10.0.0.0/8, fd00::/8', ipset '10.2.0.0/15, ::/1')) v(a, b);
SELECT ~ ipset '128.0.0.0/1, 8000::/1', ~ ipset '', ~ ipset '::/0';
-- numbers of addresses
SELECT ipset_count(s, 4), ipset_count(s, 6) FROM (VALUES (ipset '10.0.0.0/30, 10.0.0.7, fd00::/64')) v(s);
SELECT ipset_count(s, 4), ipset_count(s, 6) FROM (VALUES (ipset '0.0.0.0/0, ::/0')) v(s);
SELECT ipset_count('', 4), ipset_count('', 6), ipset_count('::/1, 8000::', 6);
-- rows: networks and ranges
SELECT ipset_networks('10.0.0.1-10.0.0.4, ::1');
SELECT * FROM ipset_ranges('10.0.0.1-10.0.0.4, 10.0.0.5, 0.0.0.0, fd00::/127, ffff::/16');
SELECT count(*) FROM ipset_networks('');
SELECT count(*), max(last) FROM ipset_ranges('0.0.0.0/0');
SELECT pg_typeof(n) FROM ipset_networks('::') n;
-- equality and order: of the sets, not of their texts
SELECT ipset '10.0.0.0/24' = '10.0.0.128/25, 10.0.0.0/25', ipset '10.0.0.0/24' <> '10.0.0.0/25', ipset '' = '::';
CREATE TABLE lists(id int, s ipset);
INSERT INTO lists VALUES (1, '10.0.0.0/24'), (2, '10.0.0.0/25,10.0.0.128/25'), (3, '::1'), (4, NULL), (5, '::1');
SELECT count(DISTINCT s) FROM lists;
SELECT array_agg(id ORDER BY id) FROM lists GROUP BY s ORDER BY 1;
SET enable_hashagg = off;
SELECT array_agg(id ORDER BY id) FROM lists GROUP BY s ORDER BY 1;
RESET enable_hashagg;
CREATE INDEX lists_s ON lists(s);
SET enable_seqscan = off;
SELECT id FROM lists WHERE s = '10.0.0.0/24' ORDER BY id;
RESET enable_seqscan;
SELECT a.id, b.id FROM lists a JOIN lists b USING (s) WHERE a.id < b.id ORDER BY 1;
SELECT ipset_cmp(a, b) = - ipset_cmp(b, a), (a < b) <> (a >= b), (a > b) <> (a <= b), a <= a, a >= a, a < a
FROM (VALUES (ipset '10.0.0.0/8', ipset '::/8')) v(a, b);
DROP TABLE lists;
-- the image as bytea, and back
SELECT (ipset '10.0.0.0/30')::bytea;
SELECT count(*) FROM (VALUES (ipset '10.0.0.0/8, fd00::1-fd00::7'), (''), ('0.0.0.0/0, ::/0')) v(s)
WHERE s::bytea::ipset = s;
SELECT NULL::bytea::ipset IS NULL, ipset('10.0.0.0/8');
-- addresses mapped into IPv6
SELECT ipset_unmap('::ffff:10.0.0.1'), ipset_unmap('::ffff:10.1.2.3/104'), ipset_unmap('::ffff:0.0.0.0/96'),
    ipset_unmap('::ffff:10.0.0.1/95'), ipset_unmap('10.0.0.1/8'), ipset_unmap('fd00::1'), ipset_unmap('::fffe:10.0.0.1'),
    ipset_unmap(NULL) IS NULL;
-- a set as a literal of an array and of a row
SELECT ARRAY[ipset '10.0.0.0/8, 11.0.0.0/8', ''];
SELECT ROW(ipset '10.0.0.0/8, 12.0.0.0/8');
