-- Which large packages, or programs for X, does the games team have?
SELECT P.NAME, T.NAME FROM MAINTAINER M, PACKAGE P, TAG T
WHERE M.NAME = 'Debian Games Team' AND P.MAINTAINER = M.ID AND T.PACKAGE = P.ID AND (P.SIZE > 100000000 OR T.NAME = 'interface::x11')
