-- Routes of at most three links, in any direction, that pass no router twice.
SELECT * FROM GRAPH_TABLE (net MATCH ACYCLIC (a IS router)-[l IS link]-{1,3}(b IS router)
  WHERE a.id < b.id COLUMNS (a.site AS one, b.site AS other))
