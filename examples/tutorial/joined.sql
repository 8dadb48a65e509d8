SELECT * FROM GRAPH_TABLE (routes MATCH (a)-[f]->(h), (h)-[g]->(b)
  WHERE h.hub IS TRUE AND a.code <> b.code COLUMNS (a.city AS start, h.city AS via, b.city AS finish))
