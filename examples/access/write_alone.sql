-- Two rights on one resource, one of them to write: two path patterns that share r.
SELECT * FROM GRAPH_TABLE (access MATCH (p)-[m IS may]->(r), (q)-[n IS may]->(r)
  WHERE m.verb = 'write' AND NOT n.verb IN ('write', 'own') COLUMNS (r.path AS path, p.name AS writer, q.name AS other))
