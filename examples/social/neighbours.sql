-- Whom does each person know, or is known by? An edge in any direction counts a self-loop once.
SELECT * FROM GRAPH_TABLE (g MATCH (x)-[e]-(y) COLUMNS (x.name AS person, y.name AS neighbour, e.since AS since))
