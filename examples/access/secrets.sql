-- The shortest ways in which a person comes to a secret, or to what nobody has classified.
SELECT * FROM GRAPH_TABLE (access MATCH ALL SHORTEST (u IS principal WHERE u.person)-[IS member]->{0,3}(g IS principal)-[IS may]->(r IS resource)
  WHERE r.secret IS NOT FALSE COLUMNS (u.name AS who, r.path AS path))
