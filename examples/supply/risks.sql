-- Suppliers of what a part is made of, directly or one level down: two path patterns share p.
SELECT * FROM GRAPH_TABLE (supply MATCH (w IS item)-[IS made_of]->{0,2}(p IS item), (s IS firm)-[d IS delivers]->(p)
  WHERE d.days >= 10 COLUMNS (w.code AS part, p.code AS component, s.name AS supplier, d.days AS days))
