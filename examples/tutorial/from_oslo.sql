SELECT * FROM GRAPH_TABLE (routes MATCH (a)-[f]->(b)
  WHERE a.city = 'Oslo' COLUMNS (f.number AS flight, b.city AS city, f.price AS price))
