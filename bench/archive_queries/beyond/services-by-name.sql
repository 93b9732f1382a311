-- Which services have a timer beside them?
SELECT F.NAME, G.NAME FROM FILE F, FILE G, DIRECTORY R
WHERE R.PATH = '/lib/systemd/system' AND F.DIRECTORY = R.ID AND G.DIRECTORY = R.ID AND F.PACKAGE = G.PACKAGE AND F.NAME LIKE '%.service' AND G.NAME LIKE '%.timer'
