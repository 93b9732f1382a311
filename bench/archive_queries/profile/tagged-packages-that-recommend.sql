-- What do network servers recommend?
SELECT P.NAME, Q.NAME FROM PACKAGE P, TAG T, DEPENDENCY D, PACKAGE Q
WHERE T.NAME = 'network::server' AND T.PACKAGE = P.ID AND D.PACKAGE = P.ID AND D.KIND = 'Recommends' AND Q.ID = D.TARGET
