CREATE TABLE "1-abc" (
  "timestamp_ns" UBIGINT,
  "x" UBIGINT,
  "X#2" UBIGINT,
  "timestamp_ns#3" BOOLEAN,
  "#4" BIGINT
);
CREATE TABLE "2-" (
  "timestamp_ns" UBIGINT
);
CREATE TABLE "3-Poll" (
  "timestamp_ns" UBIGINT,
  "worker" UBIGINT
);
