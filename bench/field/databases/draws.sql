-- Numbers that look random and depend on their arguments alone, so that each fill of a database gives the same rows.
CREATE FUNCTION draw(place bigint, stream int, kinds bigint) RETURNS int LANGUAGE sql IMMUTABLE PARALLEL SAFE AS
    'SELECT ((hashint8extended(place, stream) & 9223372036854775807) % kinds)::int';
-- The same where small numbers are much more frequent than large ones.
CREATE FUNCTION draw_low(place bigint, stream int, kinds bigint) RETURNS int LANGUAGE sql IMMUTABLE PARALLEL SAFE AS
    'SELECT floor(kinds * power((hashint8extended(place, stream) & 1048575) / 1048576.0::float8, 3))::int';
-- A text of so many letters and blanks.
CREATE FUNCTION words(place bigint, letters int) RETURNS text LANGUAGE sql IMMUTABLE PARALLEL SAFE AS
    $$SELECT string_agg(CASE WHEN part % 4 = 0 THEN ' ' ELSE '' END || substr(md5((place * 64 + part)::text), 1, 1 + part % 12), '')
    FROM generate_series(1, 1 + letters / 7) part$$;
