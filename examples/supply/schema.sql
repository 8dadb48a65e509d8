-- Parts are made of parts; suppliers deliver parts; parts are of kinds by their labels.
CREATE TABLE part (code VARCHAR(10) PRIMARY KEY, title VARCHAR(40), price DECIMAL(8, 2));
CREATE TABLE supplier (id INTEGER PRIMARY KEY, name VARCHAR(40), country VARCHAR(2));
CREATE TABLE contains (whole VARCHAR(10), component VARCHAR(10), pieces SMALLINT NOT NULL,
  PRIMARY KEY (whole, component),
  FOREIGN KEY (whole) REFERENCES part (code), FOREIGN KEY (component) REFERENCES part (code));
CREATE TABLE delivers (supplier INTEGER REFERENCES supplier (id), part VARCHAR(10) REFERENCES part (code), days INTEGER,
  PRIMARY KEY (supplier, part));
CREATE PROPERTY GRAPH supply
  VERTEX TABLES (part LABEL item PROPERTIES (code, title AS name) LABEL priced PROPERTIES (price),
                 supplier LABEL firm PROPERTIES (name, country))
  EDGE TABLES (contains SOURCE KEY (whole) REFERENCES part (code) DESTINATION KEY (component) REFERENCES part (code) LABEL made_of,
               delivers SOURCE KEY (supplier) REFERENCES supplier (id) DESTINATION KEY (part) REFERENCES part (code) LABEL delivers);
