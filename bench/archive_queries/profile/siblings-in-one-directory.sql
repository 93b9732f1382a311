-- Which packages of one source install fonts into the same directory as a game?
SELECT P.NAME, Q.NAME, F.NAME, G.NAME FROM PACKAGE P, PACKAGE Q, FILE F, FILE G
WHERE P.SECTION = 'games' AND P.SOURCE = Q.SOURCE AND F.PACKAGE = P.ID AND G.PACKAGE = Q.ID AND F.DIRECTORY = G.DIRECTORY AND Q.SECTION = 'fonts'
