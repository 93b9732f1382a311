-- What has to be unpacked first for somebody's dependency?
SELECT P.NAME, Q.NAME FROM PACKAGE P, DEPENDENCY D, DEPENDENCY E, PACKAGE Q
WHERE D.PACKAGE = P.ID AND D.KIND = 'Depends' AND E.PACKAGE = D.TARGET AND E.KIND = 'Pre-Depends' AND Q.ID = E.TARGET
