-- Which tools for security have a program in /usr/sbin?
SELECT P.NAME, U.NAME, F.NAME FROM PACKAGE P, TAG T, TAG U, FILE F, DIRECTORY R
WHERE T.FACET = 'security' AND T.PACKAGE = P.ID AND U.FACET = 'protocol' AND U.PACKAGE = P.ID AND F.PACKAGE = P.ID AND R.ID = F.DIRECTORY AND R.PATH = '/usr/sbin'
