-- Where does money of blocked accounts go, over one to three large transfers, none of them used twice?
SELECT * FROM GRAPH_TABLE (bank MATCH
  TRAIL (a IS account WHERE a.blocked IS TRUE) -[t IS moved WHERE t.amount >= 1000.00]->{1,3} (b IS account)
  WHERE a.id <> b.id COLUMNS (a.owner AS payer, b.owner AS payee)) AS found;
