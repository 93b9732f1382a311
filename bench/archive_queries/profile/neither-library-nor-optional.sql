-- What do the packages need that are neither a library nor optional?
SELECT P.NAME, Q.NAME, T.NAME FROM PACKAGE P, DEPENDENCY D, PACKAGE Q, TAG T
WHERE NOT (P.SECTION IN ('libs', 'libdevel') OR P.PRIORITY = 'optional') AND D.PACKAGE = P.ID AND Q.ID = D.TARGET AND T.PACKAGE = Q.ID
