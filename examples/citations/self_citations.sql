-- Authors who cite themselves: a path that comes back to its author.
SELECT * FROM GRAPH_TABLE (library MATCH (a IS author)-[IS wrote]->(p)-[IS cites]->(q)<-[IS wrote]-(a)
  COLUMNS (a.name AS author, p.title AS paper, q.title AS cited))
