-- Users are members of groups, groups of groups, and groups may use resources.
CREATE TABLE principal (id INTEGER PRIMARY KEY, name VARCHAR(30), person BOOLEAN NOT NULL);
CREATE TABLE resource (id INTEGER PRIMARY KEY, path VARCHAR(60), secret BOOLEAN);
CREATE TABLE member (principal INTEGER REFERENCES principal (id), team INTEGER REFERENCES principal (id), until DATE, PRIMARY KEY (principal, team));
CREATE TABLE may (id INTEGER PRIMARY KEY, principal INTEGER REFERENCES principal (id), resource INTEGER REFERENCES resource (id), verb VARCHAR(10));
CREATE PROPERTY GRAPH access
  VERTEX TABLES (principal, resource)
  EDGE TABLES (member SOURCE KEY (principal) REFERENCES principal (id) DESTINATION KEY (team) REFERENCES principal (id),
               may SOURCE principal DESTINATION resource);
