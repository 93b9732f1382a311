-- What is known of the packages of a maintainer with a program in /usr/games?
SELECT P.NAME, T.NAME, F.NAME, D.TARGET FROM PACKAGE P, MAINTAINER M, TAG T, DEPENDENCY D, FILE F, DIRECTORY R
WHERE R.PATH = '/usr/games' AND F.DIRECTORY = R.ID AND F.PACKAGE = P.ID AND T.PACKAGE = P.ID AND D.PACKAGE = P.ID AND M.ID = P.MAINTAINER AND M.NAME = 'Debian Games Team'
