-- The functions of the extension colfind: whether a text has a match of a pattern, where its first one is, and all of them.
\echo Use "CREATE EXTENSION colfind" to load this file. \quit

CREATE FUNCTION colfind(text text, pattern text, strength integer DEFAULT 3, weighting text DEFAULT 'non-ignorable')
RETURNS boolean AS 'MODULE_PATHNAME', 'pg_colfind' LANGUAGE C STRICT STABLE PARALLEL SAFE COST 20;

CREATE FUNCTION colfind_range(text text, pattern text, strength integer DEFAULT 3, weighting text DEFAULT 'non-ignorable')
RETURNS int4range AS 'MODULE_PATHNAME', 'pg_colfind_range' LANGUAGE C STRICT STABLE PARALLEL SAFE COST 20;

CREATE FUNCTION colfind_ranges(text text, pattern text, strength integer DEFAULT 3, weighting text DEFAULT 'non-ignorable',
                               selection text DEFAULT 'all', OUT range int4range, OUT match text)
RETURNS SETOF record AS 'MODULE_PATHNAME', 'pg_colfind_ranges' LANGUAGE C STRICT STABLE PARALLEL SAFE COST 40 ROWS 2;
