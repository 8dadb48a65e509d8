-- Routers and hosts, joined by links; each link is one row, whatever the direction of traffic.
CREATE TABLE router (id INTEGER PRIMARY KEY, site VARCHAR(20), up BOOLEAN NOT NULL);
CREATE TABLE host (id INTEGER PRIMARY KEY, name VARCHAR(20));
CREATE TABLE link (id INTEGER PRIMARY KEY, one INTEGER REFERENCES router (id), other INTEGER REFERENCES router (id), cost INTEGER);
CREATE TABLE port (id INTEGER PRIMARY KEY, host INTEGER REFERENCES host (id), router INTEGER REFERENCES router (id));
CREATE PROPERTY GRAPH net
  VERTEX TABLES (router LABEL node PROPERTIES (id) LABEL router PROPERTIES (site, up), host LABEL node PROPERTIES (id) LABEL host PROPERTIES (name))
  EDGE TABLES (link SOURCE KEY (one) REFERENCES router (id) DESTINATION KEY (other) REFERENCES router (id) LABEL link,
               port SOURCE KEY (host) REFERENCES host (id) DESTINATION KEY (router) REFERENCES router (id) LABEL port);
