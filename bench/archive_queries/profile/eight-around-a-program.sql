-- What is known of graphical programs for images and of what they recommend?
SELECT P.NAME, U.NAME, F.NAME, Q.NAME, M.NAME FROM PACKAGE P, TAG T, TAG U, FILE F, DIRECTORY R, DEPENDENCY D, PACKAGE Q, MAINTAINER M
WHERE T.NAME = 'works-with::image:raster' AND T.PACKAGE = P.ID AND U.PACKAGE = P.ID AND U.FACET = 'interface' AND F.PACKAGE = P.ID AND R.ID = F.DIRECTORY AND R.PATH = '/usr/bin'
AND D.PACKAGE = P.ID AND D.KIND = 'Recommends' AND Q.ID = D.TARGET AND M.ID = Q.MAINTAINER
