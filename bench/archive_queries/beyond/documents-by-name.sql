-- Which documents have a library of the same source?
SELECT P.NAME, Q.NAME FROM PACKAGE P, PACKAGE Q WHERE P.NAME LIKE '%-doc' AND Q.NAME LIKE 'lib%' AND P.SOURCE = Q.SOURCE
