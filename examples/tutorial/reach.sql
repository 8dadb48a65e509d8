SELECT * FROM GRAPH_TABLE (routes MATCH TRAIL (a WHERE a.city = 'Tallinn')-[f]->{1,3}(b)
  COLUMNS (b.city AS city))
