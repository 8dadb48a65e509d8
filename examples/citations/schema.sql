-- Papers, their authors, and who cites whom.
CREATE TABLE paper (doi VARCHAR(20) PRIMARY KEY, title VARCHAR(60), published DATE);
CREATE TABLE author (id INTEGER PRIMARY KEY, name VARCHAR(30));
CREATE TABLE wrote (author INTEGER REFERENCES author (id), paper VARCHAR(20) REFERENCES paper (doi), PRIMARY KEY (author, paper));
CREATE TABLE cites (citing VARCHAR(20) REFERENCES paper (doi), cited VARCHAR(20) REFERENCES paper (doi), PRIMARY KEY (citing, cited));
CREATE PROPERTY GRAPH library
  VERTEX TABLES (paper, author)
  EDGE TABLES (wrote SOURCE author DESTINATION paper, cites SOURCE KEY (citing) REFERENCES paper (doi) DESTINATION KEY (cited) REFERENCES paper (doi));
