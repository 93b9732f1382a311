-- Which packages does a dependency of a desktop package break?
SELECT P.NAME, R.NAME, Q.NAME FROM PACKAGE P, DEPENDENCY D, PACKAGE R, DEPENDENCY E, PACKAGE Q
WHERE P.SECTION IN ('gnome', 'kde', 'xfce') AND D.PACKAGE = P.ID AND D.KIND = 'Depends' AND R.ID = D.TARGET AND E.PACKAGE = R.ID AND E.KIND = 'Breaks' AND Q.ID = E.TARGET
