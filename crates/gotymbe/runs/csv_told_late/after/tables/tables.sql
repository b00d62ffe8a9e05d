CREATE TABLE "1-Poll" (
  "timestamp_ns" UBIGINT,
  "v" UBIGINT
);
CREATE TABLE "2-Told" (
  "timestamp_ns" UBIGINT,
  "v" UBIGINT
);
