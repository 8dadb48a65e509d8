-- What may each person do, by itself or by up to three levels of membership?
SELECT * FROM GRAPH_TABLE (access MATCH (u IS principal WHERE u.person)-[IS member]->{0,3}(g IS principal)-[m IS may]->(r IS resource)
  COLUMNS (u.name AS who, m.verb AS verb, r.path AS path, g.name AS through))
