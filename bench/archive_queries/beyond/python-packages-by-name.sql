-- Which Python packages need another Python package?
SELECT P.NAME, Q.NAME FROM PACKAGE P, DEPENDENCY D, PACKAGE Q
WHERE P.NAME LIKE 'python3-%' AND D.PACKAGE = P.ID AND D.KIND = 'Depends' AND Q.ID = D.TARGET AND Q.NAME LIKE 'python3-%'
