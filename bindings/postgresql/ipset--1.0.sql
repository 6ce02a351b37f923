-- The extension ipset: the types ipset and iptable. docs/SQL.md of the source describes the calls.
\echo Use "CREATE EXTENSION ipset" to load this file. \quit

-- ---- the type ipset

CREATE TYPE ipset;
CREATE FUNCTION ipset_in(cstring) RETURNS ipset AS 'MODULE_PATHNAME' LANGUAGE C IMMUTABLE STRICT PARALLEL SAFE;
CREATE FUNCTION ipset_out(ipset) RETURNS cstring AS 'MODULE_PATHNAME' LANGUAGE C IMMUTABLE STRICT PARALLEL SAFE;
CREATE FUNCTION ipset_recv(internal) RETURNS ipset AS 'MODULE_PATHNAME' LANGUAGE C IMMUTABLE STRICT PARALLEL SAFE;
CREATE FUNCTION ipset_send(ipset) RETURNS bytea AS 'MODULE_PATHNAME', 'image_send'
    LANGUAGE C IMMUTABLE STRICT PARALLEL SAFE;
CREATE TYPE ipset (
    INPUT = ipset_in, OUTPUT = ipset_out, RECEIVE = ipset_recv, SEND = ipset_send,
    ALIGNMENT = double, STORAGE = external
);
COMMENT ON TYPE ipset IS 'a set of IPv4 and IPv6 addresses';

CREATE FUNCTION ipset(bytea) RETURNS ipset AS 'MODULE_PATHNAME', 'ipset_from_bytea'
    LANGUAGE C IMMUTABLE STRICT PARALLEL SAFE;
CREATE CAST (bytea AS ipset) WITH FUNCTION ipset(bytea);
CREATE CAST (ipset AS bytea) WITH FUNCTION ipset_send(ipset);

-- ---- texts before a cast, and addresses mapped into IPv6

CREATE FUNCTION ipset_is_address(text) RETURNS boolean AS 'MODULE_PATHNAME' LANGUAGE C IMMUTABLE STRICT PARALLEL SAFE;
CREATE FUNCTION ipset_is_entry(text) RETURNS boolean AS 'MODULE_PATHNAME' LANGUAGE C IMMUTABLE STRICT PARALLEL SAFE;
CREATE FUNCTION ipset_unmap(inet) RETURNS inet AS 'MODULE_PATHNAME' LANGUAGE C IMMUTABLE STRICT PARALLEL SAFE;

-- ---- questions and operations of sets

CREATE FUNCTION ipset_contains(ipset, inet) RETURNS boolean AS 'MODULE_PATHNAME', 'ipset_contains_inet'
    LANGUAGE C IMMUTABLE STRICT PARALLEL SAFE;
CREATE FUNCTION ipset_contains(ipset, ipset) RETURNS boolean AS 'MODULE_PATHNAME', 'ipset_contains_set'
    LANGUAGE C IMMUTABLE STRICT PARALLEL SAFE;
CREATE FUNCTION ipset_contained(inet, ipset) RETURNS boolean AS 'MODULE_PATHNAME', 'inet_in_ipset'
    LANGUAGE C IMMUTABLE STRICT PARALLEL SAFE;
CREATE FUNCTION ipset_contained(ipset, ipset) RETURNS boolean AS 'MODULE_PATHNAME', 'ipset_in_ipset'
    LANGUAGE C IMMUTABLE STRICT PARALLEL SAFE;
CREATE FUNCTION ipset_overlaps(ipset, ipset) RETURNS boolean AS 'MODULE_PATHNAME'
    LANGUAGE C IMMUTABLE STRICT PARALLEL SAFE;
CREATE FUNCTION ipset_union(ipset, ipset) RETURNS ipset AS 'MODULE_PATHNAME'
    LANGUAGE C IMMUTABLE STRICT PARALLEL SAFE;
CREATE FUNCTION ipset_intersection(ipset, ipset) RETURNS ipset AS 'MODULE_PATHNAME'
    LANGUAGE C IMMUTABLE STRICT PARALLEL SAFE;
CREATE FUNCTION ipset_difference(ipset, ipset) RETURNS ipset AS 'MODULE_PATHNAME'
    LANGUAGE C IMMUTABLE STRICT PARALLEL SAFE;
CREATE FUNCTION ipset_complement(ipset) RETURNS ipset AS 'MODULE_PATHNAME'
    LANGUAGE C IMMUTABLE STRICT PARALLEL SAFE;
CREATE FUNCTION ipset_count(ipset, family integer) RETURNS numeric AS 'MODULE_PATHNAME'
    LANGUAGE C IMMUTABLE STRICT PARALLEL SAFE;
CREATE FUNCTION ipset_networks(ipset) RETURNS SETOF cidr AS 'MODULE_PATHNAME'
    LANGUAGE C IMMUTABLE STRICT PARALLEL SAFE;
CREATE FUNCTION ipset_ranges(ipset, OUT first inet, OUT last inet) RETURNS SETOF record AS 'MODULE_PATHNAME'
    LANGUAGE C IMMUTABLE STRICT PARALLEL SAFE;

CREATE OPERATOR @> (LEFTARG = ipset, RIGHTARG = inet, FUNCTION = ipset_contains, COMMUTATOR = <@,
    RESTRICT = contsel, JOIN = contjoinsel);
CREATE OPERATOR <@ (LEFTARG = inet, RIGHTARG = ipset, FUNCTION = ipset_contained, COMMUTATOR = @>,
    RESTRICT = contsel, JOIN = contjoinsel);
CREATE OPERATOR @> (LEFTARG = ipset, RIGHTARG = ipset, FUNCTION = ipset_contains, COMMUTATOR = <@,
    RESTRICT = contsel, JOIN = contjoinsel);
CREATE OPERATOR <@ (LEFTARG = ipset, RIGHTARG = ipset, FUNCTION = ipset_contained, COMMUTATOR = @>,
    RESTRICT = contsel, JOIN = contjoinsel);
CREATE OPERATOR && (LEFTARG = ipset, RIGHTARG = ipset, FUNCTION = ipset_overlaps, COMMUTATOR = &&,
    RESTRICT = areasel, JOIN = areajoinsel);
CREATE OPERATOR + (LEFTARG = ipset, RIGHTARG = ipset, FUNCTION = ipset_union, COMMUTATOR = +);
CREATE OPERATOR * (LEFTARG = ipset, RIGHTARG = ipset, FUNCTION = ipset_intersection, COMMUTATOR = *);
CREATE OPERATOR - (LEFTARG = ipset, RIGHTARG = ipset, FUNCTION = ipset_difference);
CREATE OPERATOR ~ (RIGHTARG = ipset, FUNCTION = ipset_complement);

-- ---- the type iptable

CREATE TYPE iptable;
CREATE FUNCTION iptable_in(cstring) RETURNS iptable AS 'MODULE_PATHNAME' LANGUAGE C IMMUTABLE STRICT PARALLEL SAFE;
CREATE FUNCTION iptable_out(iptable) RETURNS cstring AS 'MODULE_PATHNAME' LANGUAGE C IMMUTABLE STRICT PARALLEL SAFE;
CREATE FUNCTION iptable_recv(internal) RETURNS iptable AS 'MODULE_PATHNAME' LANGUAGE C IMMUTABLE STRICT PARALLEL SAFE;
CREATE FUNCTION iptable_send(iptable) RETURNS bytea AS 'MODULE_PATHNAME', 'image_send'
    LANGUAGE C IMMUTABLE STRICT PARALLEL SAFE;
CREATE TYPE iptable (
    INPUT = iptable_in, OUTPUT = iptable_out, RECEIVE = iptable_recv, SEND = iptable_send,
    ALIGNMENT = double, STORAGE = external
);
COMMENT ON TYPE iptable IS 'a table of routes: networks, each with a number';

CREATE FUNCTION iptable(bytea) RETURNS iptable AS 'MODULE_PATHNAME', 'iptable_from_bytea'
    LANGUAGE C IMMUTABLE STRICT PARALLEL SAFE;
CREATE CAST (bytea AS iptable) WITH FUNCTION iptable(bytea);
CREATE CAST (iptable AS bytea) WITH FUNCTION iptable_send(iptable);

CREATE FUNCTION longest_match(iptable, inet) RETURNS integer AS 'MODULE_PATHNAME'
    LANGUAGE C IMMUTABLE STRICT PARALLEL SAFE;
CREATE FUNCTION longest_route(iptable, inet) RETURNS cidr AS 'MODULE_PATHNAME'
    LANGUAGE C IMMUTABLE STRICT PARALLEL SAFE;
CREATE FUNCTION iptable_routes(iptable, OUT network cidr, OUT value integer) RETURNS SETOF record
    AS 'MODULE_PATHNAME' LANGUAGE C IMMUTABLE STRICT PARALLEL SAFE;

-- ---- equality, hash and order of sets: those of their images

CREATE FUNCTION ipset_eq(ipset, ipset) RETURNS boolean AS 'MODULE_PATHNAME', 'image_eq'
    LANGUAGE C IMMUTABLE STRICT PARALLEL SAFE;
CREATE FUNCTION ipset_ne(ipset, ipset) RETURNS boolean AS 'MODULE_PATHNAME', 'image_ne'
    LANGUAGE C IMMUTABLE STRICT PARALLEL SAFE;
CREATE FUNCTION ipset_lt(ipset, ipset) RETURNS boolean AS 'MODULE_PATHNAME', 'image_lt'
    LANGUAGE C IMMUTABLE STRICT PARALLEL SAFE;
CREATE FUNCTION ipset_le(ipset, ipset) RETURNS boolean AS 'MODULE_PATHNAME', 'image_le'
    LANGUAGE C IMMUTABLE STRICT PARALLEL SAFE;
CREATE FUNCTION ipset_gt(ipset, ipset) RETURNS boolean AS 'MODULE_PATHNAME', 'image_gt'
    LANGUAGE C IMMUTABLE STRICT PARALLEL SAFE;
CREATE FUNCTION ipset_ge(ipset, ipset) RETURNS boolean AS 'MODULE_PATHNAME', 'image_ge'
    LANGUAGE C IMMUTABLE STRICT PARALLEL SAFE;
CREATE FUNCTION ipset_cmp(ipset, ipset) RETURNS integer AS 'MODULE_PATHNAME', 'image_cmp'
    LANGUAGE C IMMUTABLE STRICT PARALLEL SAFE;
CREATE FUNCTION ipset_hash(ipset) RETURNS integer AS 'MODULE_PATHNAME', 'image_hash'
    LANGUAGE C IMMUTABLE STRICT PARALLEL SAFE;
CREATE FUNCTION ipset_hash_extended(ipset, bigint) RETURNS bigint AS 'MODULE_PATHNAME', 'image_hash_extended'
    LANGUAGE C IMMUTABLE STRICT PARALLEL SAFE;
CREATE OPERATOR = (LEFTARG = ipset, RIGHTARG = ipset, FUNCTION = ipset_eq, COMMUTATOR = =,
    NEGATOR = <>, RESTRICT = eqsel, JOIN = eqjoinsel, HASHES, MERGES);
CREATE OPERATOR <> (LEFTARG = ipset, RIGHTARG = ipset, FUNCTION = ipset_ne, COMMUTATOR = <>,
    NEGATOR = =, RESTRICT = neqsel, JOIN = neqjoinsel);
CREATE OPERATOR < (LEFTARG = ipset, RIGHTARG = ipset, FUNCTION = ipset_lt, COMMUTATOR = >,
    NEGATOR = >=, RESTRICT = scalarltsel, JOIN = scalarltjoinsel);
CREATE OPERATOR <= (LEFTARG = ipset, RIGHTARG = ipset, FUNCTION = ipset_le, COMMUTATOR = >=,
    NEGATOR = >, RESTRICT = scalarlesel, JOIN = scalarlejoinsel);
CREATE OPERATOR > (LEFTARG = ipset, RIGHTARG = ipset, FUNCTION = ipset_gt, COMMUTATOR = <,
    NEGATOR = <=, RESTRICT = scalargtsel, JOIN = scalargtjoinsel);
CREATE OPERATOR >= (LEFTARG = ipset, RIGHTARG = ipset, FUNCTION = ipset_ge, COMMUTATOR = <=,
    NEGATOR = <, RESTRICT = scalargesel, JOIN = scalargejoinsel);
CREATE OPERATOR CLASS ipset_btree_ops DEFAULT FOR TYPE ipset USING btree AS
    OPERATOR 1 <, OPERATOR 2 <=, OPERATOR 3 =, OPERATOR 4 >=, OPERATOR 5 >,
    FUNCTION 1 ipset_cmp(ipset, ipset);
CREATE OPERATOR CLASS ipset_hash_ops DEFAULT FOR TYPE ipset USING hash AS
    OPERATOR 1 =, FUNCTION 1 ipset_hash(ipset), FUNCTION 2 ipset_hash_extended(ipset, bigint);

-- ---- equality, hash and order of tables: those of their images

CREATE FUNCTION iptable_eq(iptable, iptable) RETURNS boolean AS 'MODULE_PATHNAME', 'image_eq'
    LANGUAGE C IMMUTABLE STRICT PARALLEL SAFE;
CREATE FUNCTION iptable_ne(iptable, iptable) RETURNS boolean AS 'MODULE_PATHNAME', 'image_ne'
    LANGUAGE C IMMUTABLE STRICT PARALLEL SAFE;
CREATE FUNCTION iptable_lt(iptable, iptable) RETURNS boolean AS 'MODULE_PATHNAME', 'image_lt'
    LANGUAGE C IMMUTABLE STRICT PARALLEL SAFE;
CREATE FUNCTION iptable_le(iptable, iptable) RETURNS boolean AS 'MODULE_PATHNAME', 'image_le'
    LANGUAGE C IMMUTABLE STRICT PARALLEL SAFE;
CREATE FUNCTION iptable_gt(iptable, iptable) RETURNS boolean AS 'MODULE_PATHNAME', 'image_gt'
    LANGUAGE C IMMUTABLE STRICT PARALLEL SAFE;
CREATE FUNCTION iptable_ge(iptable, iptable) RETURNS boolean AS 'MODULE_PATHNAME', 'image_ge'
    LANGUAGE C IMMUTABLE STRICT PARALLEL SAFE;
CREATE FUNCTION iptable_cmp(iptable, iptable) RETURNS integer AS 'MODULE_PATHNAME', 'image_cmp'
    LANGUAGE C IMMUTABLE STRICT PARALLEL SAFE;
CREATE FUNCTION iptable_hash(iptable) RETURNS integer AS 'MODULE_PATHNAME', 'image_hash'
    LANGUAGE C IMMUTABLE STRICT PARALLEL SAFE;
CREATE FUNCTION iptable_hash_extended(iptable, bigint) RETURNS bigint AS 'MODULE_PATHNAME', 'image_hash_extended'
    LANGUAGE C IMMUTABLE STRICT PARALLEL SAFE;
CREATE OPERATOR = (LEFTARG = iptable, RIGHTARG = iptable, FUNCTION = iptable_eq, COMMUTATOR = =,
    NEGATOR = <>, RESTRICT = eqsel, JOIN = eqjoinsel, HASHES, MERGES);
CREATE OPERATOR <> (LEFTARG = iptable, RIGHTARG = iptable, FUNCTION = iptable_ne, COMMUTATOR = <>,
    NEGATOR = =, RESTRICT = neqsel, JOIN = neqjoinsel);
CREATE OPERATOR < (LEFTARG = iptable, RIGHTARG = iptable, FUNCTION = iptable_lt, COMMUTATOR = >,
    NEGATOR = >=, RESTRICT = scalarltsel, JOIN = scalarltjoinsel);
CREATE OPERATOR <= (LEFTARG = iptable, RIGHTARG = iptable, FUNCTION = iptable_le, COMMUTATOR = >=,
    NEGATOR = >, RESTRICT = scalarlesel, JOIN = scalarlejoinsel);
CREATE OPERATOR > (LEFTARG = iptable, RIGHTARG = iptable, FUNCTION = iptable_gt, COMMUTATOR = <,
    NEGATOR = <=, RESTRICT = scalargtsel, JOIN = scalargtjoinsel);
CREATE OPERATOR >= (LEFTARG = iptable, RIGHTARG = iptable, FUNCTION = iptable_ge, COMMUTATOR = <=,
    NEGATOR = <, RESTRICT = scalargesel, JOIN = scalargejoinsel);
CREATE OPERATOR CLASS iptable_btree_ops DEFAULT FOR TYPE iptable USING btree AS
    OPERATOR 1 <, OPERATOR 2 <=, OPERATOR 3 =, OPERATOR 4 >=, OPERATOR 5 >,
    FUNCTION 1 iptable_cmp(iptable, iptable);
CREATE OPERATOR CLASS iptable_hash_ops DEFAULT FOR TYPE iptable USING hash AS
    OPERATOR 1 =, FUNCTION 1 iptable_hash(iptable), FUNCTION 2 iptable_hash_extended(iptable, bigint);

-- ---- aggregates

CREATE FUNCTION ipset_agg_add(internal, inet) RETURNS internal AS 'MODULE_PATHNAME'
    LANGUAGE C IMMUTABLE PARALLEL SAFE;
CREATE FUNCTION ipset_agg_combine(internal, internal) RETURNS internal AS 'MODULE_PATHNAME'
    LANGUAGE C IMMUTABLE PARALLEL SAFE;
CREATE FUNCTION ipset_agg_serialize(internal) RETURNS bytea AS 'MODULE_PATHNAME'
    LANGUAGE C IMMUTABLE STRICT PARALLEL SAFE;
CREATE FUNCTION ipset_agg_deserialize(bytea, internal) RETURNS internal AS 'MODULE_PATHNAME'
    LANGUAGE C IMMUTABLE STRICT PARALLEL SAFE;
CREATE FUNCTION ipset_agg_final(internal) RETURNS ipset AS 'MODULE_PATHNAME'
    LANGUAGE C IMMUTABLE PARALLEL SAFE;
CREATE AGGREGATE ipset_agg(inet) (
    SFUNC = ipset_agg_add, STYPE = internal, FINALFUNC = ipset_agg_final, COMBINEFUNC = ipset_agg_combine,
    SERIALFUNC = ipset_agg_serialize, DESERIALFUNC = ipset_agg_deserialize, PARALLEL = safe
);
CREATE FUNCTION ipset_agg_add_set(internal, ipset) RETURNS internal AS 'MODULE_PATHNAME'
    LANGUAGE C IMMUTABLE PARALLEL SAFE;
CREATE AGGREGATE ipset_agg(ipset) (
    SFUNC = ipset_agg_add_set, STYPE = internal, FINALFUNC = ipset_agg_final, COMBINEFUNC = ipset_agg_combine,
    SERIALFUNC = ipset_agg_serialize, DESERIALFUNC = ipset_agg_deserialize, PARALLEL = safe
);
CREATE FUNCTION iptable_agg_add(internal, inet, integer) RETURNS internal AS 'MODULE_PATHNAME'
    LANGUAGE C IMMUTABLE PARALLEL SAFE;
CREATE FUNCTION iptable_agg_combine(internal, internal) RETURNS internal AS 'MODULE_PATHNAME'
    LANGUAGE C IMMUTABLE PARALLEL SAFE;
CREATE FUNCTION iptable_agg_serialize(internal) RETURNS bytea AS 'MODULE_PATHNAME'
    LANGUAGE C IMMUTABLE STRICT PARALLEL SAFE;
CREATE FUNCTION iptable_agg_deserialize(bytea, internal) RETURNS internal AS 'MODULE_PATHNAME'
    LANGUAGE C IMMUTABLE STRICT PARALLEL SAFE;
CREATE FUNCTION iptable_agg_final(internal) RETURNS iptable AS 'MODULE_PATHNAME'
    LANGUAGE C IMMUTABLE PARALLEL SAFE;
CREATE AGGREGATE iptable_agg(inet, integer) (
    SFUNC = iptable_agg_add, STYPE = internal, FINALFUNC = iptable_agg_final, COMBINEFUNC = iptable_agg_combine,
    SERIALFUNC = iptable_agg_serialize, DESERIALFUNC = iptable_agg_deserialize, PARALLEL = safe
);
