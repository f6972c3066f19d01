-- The database of a photo print lab, for PostgreSQL 15: what a kiosk meets there, ordinary and odd.
set client_encoding = 'UTF8';
create schema lab;

-- Paper. A size that was added later stands where it was put, not where its OID is.
create type lab.paper as enum ('10x15', '13x18', 'A4');
alter type lab.paper add value '9x13' before '10x15';
create type lab.edge as enum ('near', 'far');

-- Labels that a script has to write with care, NULL, which is a label like any other, and an enum of none.
create type lab.finish as enum ('matt', 'NULL', 'attributes', '100% cotton', '@home', 'Bütten', E'two\nlines');
create type lab.coupon as enum ();

-- Composites of composites, one of them with an attribute that was dropped.
create type lab.corner as (x int4, y int4, edge lab.edge);
create type lab.crop as (top_left lab.corner, zoom real, bottom_right lab.corner, note text);
alter type lab.crop drop attribute zoom;
create type lab.sheet as (front lab.crop, back lab.crop, size lab.paper, more lab.crop[]);

-- Domains of domains, and of an array, an enum and a composite.
create domain lab.amount as numeric(10, 2);
create domain lab.price as lab.amount check (value >= 0);
create domain lab.deposit as lab.price default 5;
create domain lab.tags as text[];
create domain lab.small_paper as lab.paper check (value in ('9x13', '10x15'));
create domain lab.whole as lab.crop;

-- Ranges, of a built-in type and of a domain. Each brings a multirange with it.
create type lab.pickup as range (subtype = timestamptz);
create type lab.prices as range (subtype = lab.price);

-- Odd names: quotes, spaces, upper case, a percent sign, bytes that are no ASCII, a line's own words.
create type lab."Crop ""A"" of 100%" as enum ('o''k', 'no "way"', E'tab\there');
create type lab."Größe" as ("Breite in mm" int4, "%" int4, "@" text, attributes text, labels text);
create type lab."LABELS" as enum ('labels');
create type public.crop as enum ('none', 'square');
create type public."@mood" as enum ('@', '%-', '#');

-- Beyond the limits of a row: more than 64 labels, an empty one, more than 64 attributes, too long a name.
do $$
begin
  execute format('create type lab.shade as enum (%s)', (select string_agg(quote_literal('shade ' || i), ', ') from generate_series(1, 65) i));
  execute format('create type lab.wide as (%s)', (select string_agg(format('c%s int2', i), ', ') from generate_series(1, 65) i));
  execute format('create schema %I', rpad('A schema ', 63, 'x'));
  execute format('create table %I.%I (scan int4)', rpad('A schema ', 63, 'x'), rpad('A table ', 63, 'x'));
end
$$;
create type lab.blank as enum ('', 'blank');
create type lab.shaded as (shade lab.shade, edge lab.edge);

-- Tables. Of orders two columns were dropped, so its attribute numbers have gaps.
create table lab.orders (
  id int8 generated always as identity primary key,
  draft boolean,
  size lab.paper not null,
  crop lab.crop,
  draft_note text,
  price lab.price,
  finishes lab.finish[],
  tags lab.tags,
  pickup lab.pickup,
  "Größe" lab."Größe",
  search tsvector
);
alter table lab.orders drop column draft, drop column draft_note;
create table lab.sheets (id int8, "order" int8 references lab.orders, sheet lab.sheet, whole lab.whole, "@at" timestamptz);
create table lab.hours (day date, open lab.pickup, closed lab.pickup_multirange, state "char");
create table lab."Order items" ("item %" int4, mood public."@mood", kind lab."Crop ""A"" of 100%", cut public.crop);
create view lab.due as
  select id, size, (crop).top_left as corner, price * 2 as double_price, pickup, array[size] as sizes, orders as whole_order from lab.orders;

-- A schema that a kiosk may not use, with a crop of its own.
create schema archive;
create type archive.crop as enum ('old', 'older');
create table archive.scans (id int8, crop archive.crop, cuts lab.crop[]);

create role kiosk login;
grant usage on schema lab to kiosk;
grant select, insert on all tables in schema lab to kiosk;
