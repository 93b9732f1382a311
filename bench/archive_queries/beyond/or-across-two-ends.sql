-- Which dependencies have a game or a font at either end?
SELECT P.NAME, Q.NAME FROM PACKAGE P, DEPENDENCY D, PACKAGE Q WHERE D.PACKAGE = P.ID AND Q.ID = D.TARGET AND (P.SECTION = 'games' OR Q.SECTION = 'fonts')
