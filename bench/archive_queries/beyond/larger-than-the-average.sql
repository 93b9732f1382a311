-- Which games are larger than their section's average?
SELECT P.NAME, P.SIZE FROM PACKAGE P WHERE P.SECTION = 'games' AND P.SIZE > (SELECT AVG(Q.SIZE) FROM PACKAGE Q WHERE Q.SECTION = P.SECTION)
