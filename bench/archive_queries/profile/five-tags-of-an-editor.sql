-- Which tags stand together on editors?
SELECT P.NAME, T.NAME, U.NAME, V.NAME, W.NAME, X.NAME FROM PACKAGE P, TAG T, TAG U, TAG V, TAG W, TAG X
WHERE P.SECTION = 'editors' AND T.PACKAGE = P.ID AND T.FACET = 'role' AND U.PACKAGE = P.ID AND U.FACET = 'interface' AND V.PACKAGE = P.ID AND V.FACET = 'use'
AND W.PACKAGE = P.ID AND W.FACET = 'works-with' AND X.PACKAGE = P.ID AND X.FACET = 'uitoolkit'
