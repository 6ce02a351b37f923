-- Errors: each quotes the text, and gives the number of the entry and the cause.
\pset format unaligned
\pset tuples_only on
CREATE FUNCTION refused(entry text, kind text) RETURNS text LANGUAGE plpgsql AS $$
DECLARE
    detail text;
BEGIN
    EXECUTE format('SELECT %L::%I', entry, kind);
    RETURN 'accepted';
EXCEPTION WHEN invalid_text_representation THEN
    GET STACKED DIAGNOSTICS detail = PG_EXCEPTION_DETAIL;
    RETURN SQLERRM || ' | ' || detail;
END $$;
SELECT refused('10.0.0.0/33', 'ipset');
SELECT refused('10.0.0.0/8, 2001:db8::/129', 'ipset');
SELECT refused('10.0.0.0/8, x, 10.0.0.0/33', 'ipset');
SELECT refused('10.0.0.01', 'ipset');
SELECT refused('1::2::3/64', 'ipset');
SELECT refused('10.0.0.0/08', 'ipset');
SELECT refused('10.0.0.0/', 'ipset');
SELECT refused('10.0.0.0/x', 'ipset');
SELECT refused('10.0.0.0/0.0.0.255', 'ipset');
SELECT refused('10.0.0.9-10.0.0.1', 'ipset');
SELECT refused('10.0.0.9-::1', 'ipset');
SELECT refused('10.0.0.0/8-11.0.0.0/8', 'ipset');
SELECT refused('fe80::1%eth0', 'ipset');
SELECT refused('10.0.0.0/8 11.0.0.0/8', 'ipset');
SELECT refused('10.0.0.1 - 10.0.0.9 web', 'ipset');
SELECT refused('10.0.0.1 –10.0.0.9', 'ipset');
SELECT refused('10.0.0.1 -', 'ipset');
SELECT refused('- 10.0.0.1', 'ipset');
SELECT refused('DEFAULT', 'ipset');
SELECT refused('www.example.org:443', 'ipset');
SELECT refused(E'10.0.0.0/8\n11.0.0.0/8', 'ipset') LIKE '%| Entry 1: it has several lines.';
SELECT refused('10.0.0.0/8,', 'ipset');
SELECT refused('10.0.0.0/8,, 11.0.0.0/8', 'ipset');
SELECT refused('10.0.0.0/8 # ours, 11.0.0.0/8', 'ipset');
SELECT refused('; 10.0.0.0/8', 'ipset');
SELECT refused(E'\uFEFF10.0.0.1', 'ipset');
SELECT refused(E'\uFEFF', 'ipset');
SELECT refused(E'::1, \uFEFF::2-::3', 'ipset');
SELECT refused(E'10.0.0.1\u200b\u00a0\\\x1b', 'ipset');
SELECT refused(repeat('ä', 60), 'ipset');
SELECT refused('10.0.0.0/8', 'iptable');
SELECT refused('10.0.0.0/8 1, 10.0.0.0/9 x', 'iptable');
SELECT refused('10.0.0.0/8 2147483648', 'iptable');
SELECT refused('10.0.0.0/8 1 2', 'iptable');
SELECT refused('10.0.0.0/40 1', 'iptable');
SELECT refused('10.0.0.0/255.0.0.0 5', 'iptable');
SELECT refused('10.0.0.0/8 1,', 'iptable');
SELECT refused('10.0.0.1-10.0.0.2 1', 'iptable');
SELECT t::iptable FROM (VALUES ('10.0.0.0/8 2, ::/0 1, 10.0.0.7/8 1')) v(t);
SELECT ipset_count('', 5);
-- bytes that are not an image, and an image of another version
SELECT '\x00'::bytea::ipset;
SELECT (ipset '10.0.0.0/8')::bytea::iptable;
SELECT (iptable '10.0.0.0/8 1')::bytea::ipset;
SELECT '\x69706e65747365740200000000000000'::bytea::ipset;
SELECT '\x69706e65747461620100000001000000'::bytea::iptable;
-- whether a text is an address, or an entry
SELECT t, ipset_is_address(t), ipset_is_entry(t) FROM (VALUES ('10.0.0.1'), ('fd00::1'), ('::ffff:10.0.0.1'), (''),
    ('10.0.0.01'), (' 10.0.0.1'), ('10.0.0.1/32'), ('10.0.0.0/33'), ('10.0.0.1 - 10.0.0.9'), ('10.0.0.9-10.0.0.1'),
    ('10.0.0.0/255.0.0.0'), ('10.0.0.1,10.0.0.2'), ('10.0.0.1 # x'), ('x'), (NULL)) v(t);
SELECT ipset_is_entry(E'10.0.0.1\n10.0.0.2'), ipset_is_entry(E'\t10.0.0.1\r\n'), ipset_is_entry(E'\uFEFF10.0.0.1');
DROP FUNCTION refused;
DROP EXTENSION ipset;
