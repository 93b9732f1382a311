-- Which headers lie in /usr/include itself, of packages that somebody suggests?
SELECT P.NAME, F.NAME, D.PACKAGE FROM DEPENDENCY D, PACKAGE P, FILE F, DIRECTORY R
WHERE D.KIND = 'Suggests' AND P.ID = D.TARGET AND F.PACKAGE = P.ID AND R.ID = F.DIRECTORY AND R.PATH = '/usr/include'
