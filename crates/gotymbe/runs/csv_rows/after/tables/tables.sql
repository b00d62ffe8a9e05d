CREATE TABLE "1-Ev" (
  "timestamp_ns" UBIGINT,
  "v" UBIGINT
);
CREATE TABLE "2-" (
  "timestamp_ns" UBIGINT
);
CREATE TABLE "3-N" (
  "timestamp_ns" UBIGINT,
  "a" BIGINT,
  "a#2" UBIGINT,
  "b" UBIGINT,
  "c" UBIGINT,
  "d" UBIGINT,
  "e" BOOLEAN,
  "e#7" BOOLEAN,
  "a#8" BIGINT,
  "#9" BIGINT
);
CREATE TABLE "4-F" (
  "timestamp_ns" UBIGINT,
  "f" DOUBLE,
  "f#2" DOUBLE,
  "f#3" DOUBLE,
  "f#4" DOUBLE,
  "f#5" DOUBLE,
  "f#6" DOUBLE,
  "f#7" DOUBLE,
  "f#8" DOUBLE
);
CREATE TABLE "5-F" (
  "timestamp_ns" UBIGINT,
  "f" DOUBLE,
  "f#2" DOUBLE,
  "f#3" DOUBLE,
  "f#4" DOUBLE,
  "f#5" DOUBLE
);
CREATE TABLE "6-a" (
  "timestamp_ns" UBIGINT,
  "#1" VARCHAR,
  "b" VARCHAR,
  "b#3" VARCHAR
);
CREATE TABLE "7-M" (
  "timestamp_ns" UBIGINT,
  "m" VARCHAR,
  "m#2" VARCHAR
);
CREATE TABLE "8-P" (
  "timestamp_ns" UBIGINT,
  "t" VARCHAR,
  "t#2" VARCHAR,
  "t#3" VARCHAR,
  "s" VARCHAR,
  "s#5" VARCHAR,
  "s#6" VARCHAR,
  "s#7" VARCHAR
);
CREATE TABLE "9-D" (
  "timestamp_ns" UBIGINT,
  "l" VARCHAR,
  "m" VARCHAR
);
CREATE TABLE "10-A" (
  "timestamp_ns" UBIGINT,
  "t" VARCHAR
);
CREATE TABLE "11-B" (
  "timestamp_ns" UBIGINT,
  "u" VARCHAR
);
