SELECT * FROM GRAPH_TABLE (routes MATCH ALL SHORTEST (a)-[f]->{1,3}(b)
  WHERE a.city = 'Tallinn' AND NOT (b.city = 'Tallinn') COLUMNS (b.city AS city))
