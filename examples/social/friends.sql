SELECT * FROM GRAPH_TABLE (G MATCH (x)-[e]->(y) COLUMNS (x.name AS x, y.name AS y))
