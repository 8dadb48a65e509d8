-- Accounts opened since 2021 and transfers in that they received in February 2024.
SELECT * FROM GRAPH_TABLE (bank MATCH (b WHERE b.opened >= DATE '2021-01-01')<-[t WHERE t.day BETWEEN DATE '2024-02-01' AND DATE '2024-02-29']-(a)
  COLUMNS (b.owner AS payee, a.owner AS payer, t.amount AS amount, t.day AS day))
