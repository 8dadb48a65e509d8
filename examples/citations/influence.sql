-- Which papers build on which, over at most three citations; each chain once.
SELECT * FROM GRAPH_TABLE (library MATCH (p IS paper)-[IS cites]->{1,3}(q IS paper)
  COLUMNS (p.title AS later, q.title AS earlier, q.published AS published))
