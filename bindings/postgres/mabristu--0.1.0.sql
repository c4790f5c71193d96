\echo Use "CREATE EXTENSION mabristu" to load this file. \quit

-- The registered descriptor sets. A type that several sets declare is that of the set with the least id. Rows are added and removed, but never changed.
-- pg_dump puts the data of tables in the order of their names, and the sets have to be there before a table whose checks call this extension: hence the _.
CREATE TABLE _pb_sets (
    id integer PRIMARY KEY,
    name text NOT NULL UNIQUE CHECK (name <> '' AND strpos(name, '/') = 0),
    bytes bytea NOT NULL,
    lenient boolean NOT NULL
);
GRANT SELECT ON _pb_sets TO PUBLIC;
SELECT pg_catalog.pg_extension_config_dump('_pb_sets', '');

CREATE FUNCTION pb_sets_changed() RETURNS trigger LANGUAGE c AS 'MODULE_PATHNAME';
CREATE TRIGGER changed AFTER INSERT OR DELETE OR TRUNCATE ON _pb_sets FOR EACH STATEMENT EXECUTE FUNCTION pb_sets_changed();
CREATE TRIGGER fixed BEFORE UPDATE ON _pb_sets FOR EACH STATEMENT EXECUTE FUNCTION pb_sets_changed();
ALTER TABLE _pb_sets ENABLE ALWAYS TRIGGER changed;
ALTER TABLE _pb_sets ENABLE ALWAYS TRIGGER fixed;

CREATE FUNCTION pb_set_types(set bytea, lenient boolean DEFAULT false) RETURNS integer
    LANGUAGE c IMMUTABLE STRICT PARALLEL SAFE COST 10000 AS 'MODULE_PATHNAME';
COMMENT ON FUNCTION pb_set_types IS 'how many message types a descriptor set has; an error says why it is refused';

CREATE FUNCTION pb_register(name text, set bytea, lenient boolean DEFAULT false) RETURNS integer
    LANGUAGE plpgsql STRICT SET search_path = pg_catalog, pg_temp AS $$
DECLARE
    types integer := @extschema@.pb_set_types(set, lenient);
    kept record;
BEGIN
    -- One after another, so that a set never gets a lesser id than one that was committed before.
    PERFORM pg_advisory_xact_lock('@extschema@._pb_sets'::regclass::oid::bigint);
    SELECT it.bytes, it.lenient INTO kept FROM @extschema@._pb_sets AS it WHERE it.name = pb_register.name;
    IF NOT FOUND THEN
        INSERT INTO @extschema@._pb_sets (id, name, bytes, lenient)
            SELECT coalesce(max(it.id), 0) + 1, pb_register.name, pb_register.set, pb_register.lenient FROM @extschema@._pb_sets AS it;
    ELSIF kept.bytes <> pb_register.set OR kept.lenient <> pb_register.lenient THEN
        RAISE EXCEPTION 'set % is registered, and a set does not change: give this one another name', pb_register.name USING ERRCODE = 'duplicate_object';
    END IF;
    RETURN types;
END
$$;
COMMENT ON FUNCTION pb_register IS 'adds the types of a descriptor set under a name, and gives how many there are';

CREATE FUNCTION pb_unregister(name text) RETURNS boolean
    LANGUAGE plpgsql STRICT SET search_path = pg_catalog, pg_temp AS $$
DECLARE
    user_of record;
BEGIN
    FOR user_of IN
        SELECT DISTINCT pg_describe_object(uses.classid, uses.objid, 0) AS name
        FROM pg_depend AS uses
        JOIN pg_depend AS has ON has.classid = uses.refclassid AND has.objid = uses.refobjid AND has.deptype = 'e'
        JOIN pg_extension AS extension ON has.refclassid = 'pg_extension'::regclass AND has.refobjid = extension.oid AND extension.extname = 'mabristu'
        WHERE uses.refclassid = 'pg_proc'::regclass AND uses.classid IN ('pg_class'::regclass, 'pg_attrdef'::regclass, 'pg_constraint'::regclass)
        ORDER BY 1
    LOOP
        RAISE WARNING '% keeps what mabristu answered: if that was by a type of set %, make it anew', user_of.name, pb_unregister.name;
    END LOOP;
    DELETE FROM @extschema@._pb_sets AS it WHERE it.name = pb_unregister.name;
    RETURN FOUND;
END
$$;
COMMENT ON FUNCTION pb_unregister IS 'removes a set, and warns of each index, generated column and check that calls this extension';

-- These are IMMUTABLE although they read _pb_sets: once a type is found, they give the same answer for ever, since sets do not change and a later set does not
-- take a type away from an earlier one. Only pb_unregister breaks that, and it warns.
CREATE FUNCTION pb_get(type text, bytes bytea, path text) RETURNS text
    LANGUAGE c IMMUTABLE STRICT PARALLEL SAFE COST 50 AS 'MODULE_PATHNAME';
COMMENT ON FUNCTION pb_get IS 'the value at a path of a message, as text that a cast reads';

CREATE FUNCTION pb_json(type text, bytes bytea) RETURNS json
    LANGUAGE c IMMUTABLE STRICT PARALLEL SAFE COST 200 AS 'MODULE_PATHNAME';
COMMENT ON FUNCTION pb_json IS 'a message as JSON';

CREATE FUNCTION pb_from_json(type text, json text) RETURNS bytea
    LANGUAGE c IMMUTABLE STRICT PARALLEL SAFE COST 200 AS 'MODULE_PATHNAME';
COMMENT ON FUNCTION pb_from_json(text, text) IS 'the canonical bytes of a message in JSON';

CREATE FUNCTION pb_from_json(type text, json json) RETURNS bytea
    LANGUAGE sql IMMUTABLE STRICT PARALLEL SAFE AS 'SELECT @extschema@.pb_from_json($1, $2::text)';

CREATE FUNCTION pb_from_json(type text, json jsonb) RETURNS bytea
    LANGUAGE sql IMMUTABLE STRICT PARALLEL SAFE AS 'SELECT @extschema@.pb_from_json($1, $2::text)';

CREATE FUNCTION pb_valid(type text, bytes bytea) RETURNS boolean
    LANGUAGE c IMMUTABLE STRICT PARALLEL SAFE COST 30 AS 'MODULE_PATHNAME';
COMMENT ON FUNCTION pb_valid IS 'whether the bytes are a message of the type';

CREATE FUNCTION pb_fault(type text, bytes bytea) RETURNS text
    LANGUAGE c IMMUTABLE STRICT PARALLEL SAFE COST 30 AS 'MODULE_PATHNAME';
COMMENT ON FUNCTION pb_fault IS 'byte, path and cause for which the bytes are no message of the type, or NULL';

CREATE FUNCTION pb_frames(type text, stream bytea, keep_going boolean DEFAULT false,
                          OUT frame bigint, OUT at bigint, OUT bytes bytea, OUT fault text) RETURNS SETOF record
    LANGUAGE c IMMUTABLE STRICT PARALLEL SAFE COST 100 ROWS 1000 AS 'MODULE_PATHNAME';
COMMENT ON FUNCTION pb_frames IS 'the messages of a stream, in which each comes after its length';
