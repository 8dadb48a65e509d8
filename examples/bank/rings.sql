-- Money that comes back after exactly three transfers: the first and the last vertex are one account.
SELECT * FROM GRAPH_TABLE (bank MATCH (a)-[t]->(b)-[u]->(c)-[v]->(a)
  WHERE t.day < u.day AND u.day < v.day COLUMNS (a.owner AS owner, t.amount AS sent, v.amount AS received))
