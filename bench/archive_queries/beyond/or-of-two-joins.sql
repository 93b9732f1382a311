-- Which packages stand in a dependency of mutt, as either side?
SELECT P.NAME, Q.NAME, D.KIND FROM PACKAGE P, DEPENDENCY D, PACKAGE Q
WHERE P.NAME = 'mutt' AND ((D.PACKAGE = P.ID AND Q.ID = D.TARGET) OR (D.TARGET = P.ID AND Q.ID = D.PACKAGE))
