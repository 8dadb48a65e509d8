-- Everything with a name, of either kind; country is Null for parts, price is Null for suppliers.
SELECT * FROM GRAPH_TABLE (supply MATCH (x IS firm | item) COLUMNS (x.name AS name, x.country AS country, x.price AS price))
