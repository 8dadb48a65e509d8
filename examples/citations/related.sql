-- Papers that are related by an author or by a citation, in any direction: a union of two patterns.
SELECT * FROM GRAPH_TABLE (library MATCH (p IS paper)<-[IS wrote]-(IS author)-[IS wrote]->(q IS paper) | (p IS paper)-[IS cites]-(q IS paper)
  WHERE p.doi < q.doi COLUMNS (p.title AS one, q.title AS other))
