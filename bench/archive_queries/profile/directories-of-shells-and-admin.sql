-- Which directories do shells and programs for administration share?
SELECT R.PATH, F.NAME, G.NAME FROM DIRECTORY R, FILE F, FILE G, PACKAGE P, PACKAGE Q
WHERE F.DIRECTORY = R.ID AND G.DIRECTORY = R.ID AND P.ID = F.PACKAGE AND Q.ID = G.PACKAGE AND P.SECTION = 'shells' AND Q.SECTION = 'admin'
