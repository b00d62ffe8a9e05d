CREATE TABLE "1-Ev" (
  "timestamp_ns" UBIGINT,
  "v" UBIGINT
);
