-- Accounts and transfers between them.
CREATE TABLE account (id BIGINT NOT NULL, owner VARCHAR(100) NOT NULL, blocked BOOLEAN, opened DATE,
  CONSTRAINT account_pk PRIMARY KEY (id));
CREATE TABLE transfer (id BIGINT PRIMARY KEY, src BIGINT NOT NULL, dst BIGINT NOT NULL, amount DECIMAL(12, 2), day DATE,
  CONSTRAINT t_src FOREIGN KEY (src) REFERENCES account ON DELETE CASCADE,
  CONSTRAINT t_dst FOREIGN KEY (dst) REFERENCES account (id));
CREATE PROPERTY GRAPH bank VERTEX TABLES (account)
  EDGE TABLES (transfer SOURCE KEY (src) REFERENCES account (id)
                        DESTINATION KEY (dst) REFERENCES account (id)
                        LABEL moved PROPERTIES (id, amount, day));
