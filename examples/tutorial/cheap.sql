SELECT * FROM GRAPH_TABLE (routes MATCH (a)((p)-[f]->(q) WHERE f.price < 125){2}(b)
  WHERE a.code <> b.code COLUMNS (a.city AS "from", b.city AS "to"))
