-- Which packages install a header below /usr/include, and how many?
SELECT P.NAME, COUNT(*) FROM PACKAGE P, FILE F, DIRECTORY R
WHERE F.PACKAGE = P.ID AND R.ID = F.DIRECTORY AND R.PATH LIKE '/usr/include/%' AND F.NAME LIKE '%.h' GROUP BY P.NAME HAVING COUNT(*) > 1000
