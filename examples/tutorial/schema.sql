CREATE TABLE airport (code VARCHAR(3) PRIMARY KEY, city VARCHAR(40) NOT NULL, hub BOOLEAN);
CREATE TABLE flight (number VARCHAR(8) PRIMARY KEY, origin VARCHAR(3), target VARCHAR(3), price DECIMAL(8, 2),
  FOREIGN KEY (origin) REFERENCES airport (code), FOREIGN KEY (target) REFERENCES airport (code));
CREATE PROPERTY GRAPH routes
  VERTEX TABLES (airport)
  EDGE TABLES (flight SOURCE KEY (origin) REFERENCES airport (code)
                      DESTINATION KEY (target) REFERENCES airport (code));
