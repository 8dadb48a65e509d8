-- Everything that a bicycle is made of, over one to three levels.
SELECT * FROM GRAPH_TABLE (supply MATCH (w IS item WHERE w.code = 'B1')-[c IS made_of]->{1,3}(p IS item)
  COLUMNS (w.name AS whole, p.code AS part, p.name AS name))
