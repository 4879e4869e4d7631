%deployment
hosts = 1
sites = 1
k = 0
clients = 1
%ddl
CREATE TABLE acct (id BIGINT NOT NULL, bal BIGINT NOT NULL, PRIMARY KEY (id));
PARTITION TABLE acct ON COLUMN id;
CREATE PROCEDURE Put PARTITION ON TABLE acct COLUMN id PARAMETER 0 AS INSERT INTO acct VALUES (?, ?);
CREATE PROCEDURE Get PARTITION ON TABLE acct COLUMN id PARAMETER 0 AS SELECT bal FROM acct WHERE id = ?;
CREATE PROCEDURE Add PARTITION ON TABLE acct COLUMN id PARAMETER 0 AS PROGRAM (id BIGINT, n BIGINT) BEGIN
  SQL r = SELECT bal FROM acct WHERE id = :id;
  IF ROWS(r) = 0 THEN ABORT 'no account'; END;
  LET b = FIRST(r.bal) + :n;
  IF :b < 0 THEN ABORT 'below zero'; END;
  SQL UPDATE acct SET bal = :b WHERE id = :id;
  RETURN :b;
END;
CREATE PROCEDURE Move AS PROGRAM (src BIGINT, dst BIGINT, n BIGINT) BEGIN
  SQL r = SELECT bal FROM acct WHERE id = :src;
  SQL t = SELECT bal FROM acct WHERE id = :dst;
  IF ROWS(r) = 0 OR ROWS(t) = 0 OR FIRST(r.bal) < :n THEN ABORT 'cannot move'; END;
  SQL UPDATE acct SET bal = bal - :n WHERE id = :src;
  SQL UPDATE acct SET bal = bal + :n WHERE id = :dst;
  RETURN FIRST(r.bal) - :n;
END;
CREATE PROCEDURE Total AS SELECT SUM(bal) FROM acct;
%script
client 1 call Put 1001 250000
client 1 call Put 1002 13250
client 1 call Put 1003 0
client 1 call Get 1001
client 1 call Put 1002 99999
client 1 call Get 1002
client 1 call Get 1004
client 1 call Put 0001004 500
client 1 call Get 1004
client 1 call Put -1 -36050
client 1 call Get -1
client 1 call Get 1003
client 1 call Put 1001 250000
client 1 call Get -0001001
