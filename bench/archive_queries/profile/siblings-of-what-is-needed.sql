-- Which other packages come from the sources that a database program needs?
SELECT P.NAME, Q.NAME, S.NAME FROM PACKAGE P, DEPENDENCY D, PACKAGE Q, PACKAGE S
WHERE P.SECTION = 'database' AND D.PACKAGE = P.ID AND D.KIND = 'Depends' AND Q.ID = D.TARGET AND S.SOURCE = Q.SOURCE
