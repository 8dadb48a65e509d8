-- Pairs of routers that are joined through routers that are up.
SELECT * FROM GRAPH_TABLE (net MATCH TRAIL (a IS router WHERE a.up)((x)-[l IS link]-(y WHERE y.up)){1,2}(b IS router)
  COLUMNS (a.site AS one, b.site AS other))
