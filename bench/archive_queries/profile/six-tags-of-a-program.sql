-- Which tags stand together on programs for X?
SELECT P.NAME, U.NAME, V.NAME, W.NAME, X.NAME, Y.NAME FROM PACKAGE P, TAG T, TAG U, TAG V, TAG W, TAG X, TAG Y
WHERE T.NAME = 'interface::x11' AND T.PACKAGE = P.ID AND U.PACKAGE = P.ID AND V.PACKAGE = P.ID AND W.PACKAGE = P.ID AND X.PACKAGE = P.ID AND Y.PACKAGE = P.ID
AND U.FACET = 'role' AND V.FACET = 'use' AND W.FACET = 'works-with' AND X.FACET = 'scope' AND Y.FACET = 'works-with-format'
