-- What do the packages of the GNOME team with a toolkit need?
SELECT P.NAME, T.NAME, D.TARGET FROM PACKAGE P, MAINTAINER M, TAG T, DEPENDENCY D
WHERE M.NAME = 'Debian GNOME Maintainers' AND P.MAINTAINER = M.ID AND T.PACKAGE = P.ID AND T.FACET = 'uitoolkit' AND D.PACKAGE = P.ID
