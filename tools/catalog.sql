-- Prints what a PostgreSQL tells of its types, names and columns, as lines of a script (docs/SCRIPT.md):
--
--     psql -X -q -At -f tools/catalog.sql DATABASE > lab.script
--
-- It only reads, and sees the database as the role does that runs it, under that role's search path.
--
--   row     the types of the schemas that are not the server's own, and what they lead to: by a link or as an array
--   name    what else to_regtype takes for one of these: with its schema, without, and with [] behind its element's name
--   column  the columns of tables and views in the same schemas, but for those that every table has (ctid and its like)
--
-- What breaks a limit of a catalog is left out, and a comment says why. How much fits into a row table is not looked at here:
-- the table refuses what does not (13), and what stands nearest to the lab's own tables comes first.
\set ON_ERROR_STOP on
set jit = off;

with recursive
own(oid, schema) as (
  select oid, quote_ident(nspname) from pg_namespace where nspname !~ '^pg_' and nspname <> 'information_schema'
),
-- the links of a type are those of its kind (docs/RULES.md)
wanted(oid) as (
  select t.oid from pg_type t join own on own.oid = t.typnamespace where t.typisdefined
  union
  select next.oid
    from wanted join pg_type t using (oid)
    cross join lateral (
      select t.typarray
      union all select t.typbasetype where t.typtype = 'd'
      union all select t.typelem where t.typtype = 'b' and t.typcategory = 'A'
      union all select rngsubtype from pg_range where rngtypid = t.oid and t.typtype = 'r'
      union all select atttypid from pg_attribute where attrelid = t.typrelid and t.typtype = 'c' and attnum > 0 and not attisdropped
    ) next(oid)
    where next.oid <> 0
),
types as (
  select t.oid, t.typname, t.typtype::text, t.typcategory::text, t.typelem, t.typbasetype, t.typarray, own.schema,
      t.typnamespace = 'pg_catalog'::regnamespace as system,
      format_type(t.oid, null) as pretty,
      has_schema_privilege(t.typnamespace, 'usage') as usable,
      coalesce((select rngsubtype from pg_range where rngtypid = t.oid), 0) as rngsubtype,
      array(select enumlabel::text from pg_enum where enumtypid = t.oid order by enumsortorder) as labels,
      array(select attname::text from pg_attribute where attrelid = typrelid and attnum > 0 and not attisdropped order by attnum) as attributes,
      array(select atttypid::text from pg_attribute where attrelid = typrelid and attnum > 0 and not attisdropped order by attnum) as attribute_types
    from wanted join pg_type t using (oid) left join own on own.oid = t.typnamespace
),
judged as (
  select *, case
      when octet_length(pretty) > 128 then 'a name longer than 128 bytes'
      when cardinality(labels) > 64 then 'more than 64 labels'
      when '' = any (labels) then 'an empty label'
      when cardinality(attributes) > 64 then 'more than 64 attributes'
    end as broken
  from types
),
-- how a type may be spelt; only that may be shown to to_regtype, which stops the whole where it cannot read a name, or where the
-- role may not use a schema. The server's own types may be words of the grammar, such as numeric, and are spelt without quotes.
spelt as materialized (
  select oid, typarray, case when system then typname::text else quote_ident(typname) end as name
    from judged where broken is null and typtype <> 'p'
  union all
  select oid, typarray, schema || '.' || quote_ident(typname) from judged where broken is null and schema is not null and usable
),
named as (
  select distinct each.oid, each.name
    from (select oid, name from spelt union all select typarray, name || '[]' from spelt where typarray <> 0) each
    join judged using (oid)
    where broken is null and each.name <> pretty and to_regtype(each.name) = oid
),
columns as (
  select attrelid, attnum, attrelid::regclass::text as relation, attname::text
    from pg_attribute join pg_class c on c.oid = attrelid join own on own.oid = relnamespace
    where relkind in ('r', 'p', 'v', 'm', 'f') and attnum > 0 and not attisdropped
),
lines(part, oid, number, words) as (
  select case when schema is null then 2 else 1 end, oid, 0,
      array['row', oid::text, pretty, typtype, typcategory, typelem::text, typbasetype::text, rngsubtype::text, typarray::text]
      || case when labels <> '{}' then array['labels'] || labels else '{}' end
      || case when attributes <> '{}' then
        array['attributes'] || array(select word from unnest(attributes, attribute_types) with ordinality as each(name, type, number),
          lateral (values (1, name), (2, type)) as word(place, word) order by number, place)
      else '{}' end
    from judged where broken is null
  union all
  select 3, oid, 0, string_to_array('# left out, ' || broken || ': row', ' ') || array[oid::text, pretty] from judged where broken is not null
  union all
  select 4, oid, 0, array['name', name, oid::text] from named where octet_length(name) <= 128
  union all
  select 5, oid, 0, array['#', 'left', 'out,', 'longer', 'than', '128', 'bytes:', 'name', name, oid::text] from named where octet_length(name) > 128
  union all
  select 6, attrelid, attnum, array['column', attrelid::text, attnum::text, relation, attname] from columns where octet_length(relation) <= 128
  union all
  select 7, attrelid, attnum, string_to_array('# left out, a name longer than 128 bytes: column', ' ') || array[attrelid::text, attnum::text, relation, attname]
    from columns where octet_length(relation) > 128
)
-- each word as a script writes it, byte by byte of the database's encoding; a label attributes begins with an escape
select (
    select string_agg((
        select coalesce(string_agg(case
              when byte between 33 and 126 and byte <> 37 and not (at = 0 and (byte = 64 or word = 'attributes' and place > 10)) then chr(byte)
              else '%' || lpad(upper(to_hex(byte)), 2, '0')
            end, '' order by at), '%-')
          from generate_series(0, length(bytes) - 1) at, get_byte(bytes, at) byte
      ), ' ' order by place)
    from unnest(words) with ordinality as each(word, place), convert_to(word, getdatabaseencoding()) bytes
  )
from lines order by part, oid, number, words;
