-- The shortest chains of acquaintance, of at most three steps, between two different people.
SELECT * FROM GRAPH_TABLE (g MATCH ALL SHORTEST (x)-[e]->{1,3}(y)
  WHERE x.id <> y.id COLUMNS (x.name AS person, y.name AS reaches))
