-- The shortest routes between hosts: to a router, over links in any direction, and back to a host.
SELECT * FROM GRAPH_TABLE (net MATCH ALL SHORTEST (h IS host)-[IS port]->(IS router)-[IS link]-{1,3}(IS router)<-[IS port]-(k IS host)
  WHERE h.id < k.id COLUMNS (h.name AS one, k.name AS other))
