-- Two accounts that pay the same third one: two path patterns that share c.
SELECT * FROM GRAPH_TABLE (bank MATCH (a)-[t]->(c), (b)-[u]->(c)
  WHERE a.id < b.id COLUMNS (a.owner AS one, b.owner AS other, c.owner AS payee))
