-- Which programs lie in /usr/bin?
SELECT P.NAME, F.NAME FROM PACKAGE P, TAG T, FILE F, DIRECTORY R
WHERE T.PACKAGE = P.ID AND T.NAME = 'role::program' AND F.PACKAGE = P.ID AND R.ID = F.DIRECTORY AND R.PATH = '/usr/bin'
