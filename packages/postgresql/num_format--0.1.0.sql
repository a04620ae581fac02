\echo Use "CREATE EXTENSION num_format" to load this file. \quit

CREATE FUNCTION num_format_support(internal) RETURNS internal
    AS 'MODULE_PATHNAME'
    LANGUAGE C STRICT;

-- With a second function of this name, a call with a literal or NULL would be ambiguous.
CREATE FUNCTION num_format(number numeric, locale text) RETURNS text
    AS 'MODULE_PATHNAME', 'num_format_number'
    LANGUAGE C IMMUTABLE STRICT PARALLEL SAFE COST 20 SUPPORT num_format_support;

CREATE FUNCTION num_parse(text text, locale text) RETURNS bigint
    AS 'MODULE_PATHNAME'
    LANGUAGE C IMMUTABLE STRICT PARALLEL SAFE COST 10;

CREATE FUNCTION num_parse_decimal(text text, locale text) RETURNS numeric
    AS 'MODULE_PATHNAME'
    LANGUAGE C IMMUTABLE STRICT PARALLEL SAFE COST 20;

CREATE FUNCTION num_try_parse(text text, locale text) RETURNS bigint
    AS 'MODULE_PATHNAME'
    LANGUAGE C IMMUTABLE STRICT PARALLEL SAFE COST 10;

CREATE FUNCTION num_try_parse_decimal(text text, locale text) RETURNS numeric
    AS 'MODULE_PATHNAME'
    LANGUAGE C IMMUTABLE STRICT PARALLEL SAFE COST 20;

CREATE FUNCTION num_parse_typed(text text, locale text) RETURNS bigint
    AS 'MODULE_PATHNAME'
    LANGUAGE C IMMUTABLE STRICT PARALLEL SAFE COST 10;

CREATE FUNCTION num_parse_typed_decimal(text text, locale text) RETURNS numeric
    AS 'MODULE_PATHNAME'
    LANGUAGE C IMMUTABLE STRICT PARALLEL SAFE COST 20;

CREATE FUNCTION num_try_parse_typed(text text, locale text) RETURNS bigint
    AS 'MODULE_PATHNAME'
    LANGUAGE C IMMUTABLE STRICT PARALLEL SAFE COST 10;

CREATE FUNCTION num_try_parse_typed_decimal(text text, locale text) RETURNS numeric
    AS 'MODULE_PATHNAME'
    LANGUAGE C IMMUTABLE STRICT PARALLEL SAFE COST 20;

CREATE FUNCTION num_locale(tag text) RETURNS text
    AS 'MODULE_PATHNAME'
    LANGUAGE C IMMUTABLE STRICT PARALLEL SAFE COST 10;

CREATE FUNCTION num_format_version() RETURNS text
    AS 'MODULE_PATHNAME', 'num_format_library_version'
    LANGUAGE C IMMUTABLE STRICT PARALLEL SAFE;

COMMENT ON FUNCTION num_format(numeric, text) IS 'the number as the locale prints it, with all its decimals';
COMMENT ON FUNCTION num_parse(text, text) IS 'the whole number for which the text is canonical, grouped or not';
COMMENT ON FUNCTION num_parse_decimal(text, text) IS 'the number for which the text is canonical, grouped or not';
COMMENT ON FUNCTION num_try_parse(text, text) IS 'num_parse, or null for a text that is rejected';
COMMENT ON FUNCTION num_try_parse_decimal(text, text) IS 'num_parse_decimal, or null for a text that is rejected';
COMMENT ON FUNCTION num_parse_typed(text, text) IS 'num_parse of the text as a person types it';
COMMENT ON FUNCTION num_parse_typed_decimal(text, text) IS 'num_parse_decimal of the text as a person types it';
COMMENT ON FUNCTION num_try_parse_typed(text, text) IS 'num_parse_typed, or null for a text that is rejected';
COMMENT ON FUNCTION num_try_parse_typed_decimal(text, text) IS 'num_parse_typed_decimal, or null for a text that is rejected';
COMMENT ON FUNCTION num_locale(text) IS 'the name of the locale for a language tag: de for de_DE.UTF-8';
COMMENT ON FUNCTION num_format_version() IS 'the version of the library';
