-- Which library packages for development need the library of their own source?
SELECT P.NAME, Q.NAME FROM PACKAGE P, DEPENDENCY D, PACKAGE Q
WHERE P.SECTION = 'libdevel' AND Q.SECTION = 'libs' AND D.PACKAGE = P.ID AND D.TARGET = Q.ID AND P.SOURCE = Q.SOURCE AND D.KIND = 'Depends'
