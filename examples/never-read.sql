-- sqlite3 :memory: '.import --csv run.csv run' '.read examples/never-read.sql'
-- The bytes of a trace that were stored and that no later value was made of, as far as they are behind 300.
WITH RECURSIVE source(name, rest) AS (
  SELECT '', sources || ' ' FROM run
  UNION
  SELECT substr(rest, 1, instr(rest, ' ') - 1), substr(rest, instr(rest, ' ') + 1) FROM source WHERE rest <> ''
)
SELECT min(place), max(place), count(DISTINCT place) FROM run
WHERE place BETWEEN 's000300' AND 's0003FF' AND NOT EXISTS (
  SELECT 1 FROM source WHERE name LIKE 's%' AND place BETWEEN substr(name, 1, 7) AND 's' || substr(name, -6)
);
