-- Trails of two or three acquaintances, all made after 2001, that start at somebody over 25.
SELECT * FROM GRAPH_TABLE (g MATCH TRAIL (x WHERE x.age > 25) ((a)-[e]->(b) WHERE e.since > 2001){2,3} (y)
  COLUMNS (x.name AS first, y.name AS last))
