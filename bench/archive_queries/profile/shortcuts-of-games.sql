-- Where does a game need directly what it needs by way of another package?
SELECT P.NAME, D.TARGET, E.TARGET FROM PACKAGE P, DEPENDENCY D, DEPENDENCY E, DEPENDENCY F
WHERE P.SECTION = 'games' AND D.PACKAGE = P.ID AND E.PACKAGE = P.ID AND F.PACKAGE = D.TARGET AND F.TARGET = E.TARGET
AND D.KIND = 'Depends' AND E.KIND = 'Depends' AND F.KIND = 'Depends'
