CREATE TABLE "1-Poll" (
  "timestamp_ns" UBIGINT,
  "worker" UBIGINT,
  "cpu" UBIGINT,
  "label" VARCHAR
);
CREATE TABLE "2-Poll" (
  "timestamp_ns" UBIGINT,
  "worker" UBIGINT
);
