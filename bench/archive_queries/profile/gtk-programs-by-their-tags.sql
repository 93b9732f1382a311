-- Which graphical programs use GTK, and for what?
SELECT P.NAME, V.NAME FROM PACKAGE P, TAG T, TAG U, TAG V
WHERE T.PACKAGE = P.ID AND T.NAME = 'role::program' AND U.PACKAGE = P.ID AND U.NAME = 'uitoolkit::gtk' AND V.PACKAGE = P.ID AND V.FACET = 'use'
