-- The tables of ctwatch's store. Times are milliseconds since 1970, hashes are SHA-256.
-- A number of 64 bits without a sign is stored as the same bits with a sign.
create table logs (
  id blob primary key, name text not null, origin text not null, url text not null, public_key blob not null,
  max_merge_delay integer not null, state text not null, added integer not null
) without rowid;
create table states (
  log blob primary key references logs (id), monitor blob, accepted text not null, waiting text not null,
  read integer not null, start integer not null
) without rowid;
-- the heads that were accepted, the newest of each log
create table heads (
  log blob not null references logs (id), size integer not null, timestamp integer not null, root blob not null,
  signed blob not null, primary key (log, timestamp, size, root)
) without rowid;
-- a certificate and its precertificate are one issuance
create table issuances (
  id integer primary key, tbs_sha256 blob not null unique, found integer not null, subject text not null,
  issuer text not null, serial_number text not null, not_before integer not null, not_after integer not null,
  key_sha256 text not null, name_count integer not null, fault text not null, is_expected integer not null
);
create index issuances_by_found on issuances (found);
-- a log can answer with the precertificate of another entry, so one may be there for several issuances
create table certificates (
  id integer primary key, sha256 blob not null, issuance integer not null references issuances (id),
  type integer not null, tbs blob, der blob not null, unique (sha256, issuance)
);
create index certificates_by_issuance on certificates (issuance);
-- host is the name in small letters, with its labels in the other order: what is below a name begins with it
create table names (
  issuance integer not null references issuances (id), position integer not null, kind integer not null,
  name text not null, host text not null, primary key (issuance, position)
) without rowid;
create index names_by_host on names (host);
create table sightings (
  log blob not null references logs (id), leaf_index integer not null, issuance integer not null references issuances (id),
  certificate integer not null references certificates (id), timestamp integer not null, type integer not null,
  primary key (log, leaf_index)
) without rowid;
create index sightings_by_issuance on sightings (issuance);
create table matches (
  issuance integer not null references issuances (id), name text not null, place text not null, hosts text not null,
  is_from_store integer not null, primary key (issuance, name)
) without rowid;
create table evidence (
  id integer primary key, log blob not null references logs (id), time integer not null, verdict text not null, text text not null,
  is_seen integer not null default 0
);
create table evidence_files (
  evidence integer not null references evidence (id), name text not null, content blob not null, primary key (evidence, name)
) without rowid;
create table alerts (
  id integer primary key autoincrement, kind text not null, time integer not null, issuance integer references issuances (id),
  evidence integer references evidence (id), log blob references logs (id), text text not null
);
create index alerts_by_issuance on alerts (issuance);
-- the alerts up to done were sent; those after it and up to begun may have been sent
create table outputs (
  name text primary key, done integer not null, begun integer not null, fault text not null, failed integer not null,
  is_used integer not null
) without rowid;
create table statuses (
  log blob primary key references logs (id), size integer not null, timestamp integer not null, read integer not null,
  accepted integer not null, answered integer not null, fault text not null, reported integer not null, alerted integer not null
) without rowid;
create table watched (name text primary key, added integer not null) without rowid;
