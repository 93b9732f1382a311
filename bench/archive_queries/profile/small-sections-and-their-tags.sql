-- Which packages of the small sections share a section, and which tags have they?
SELECT P.NAME, Q.NAME, T.NAME FROM PACKAGE P, PACKAGE Q, TAG T
WHERE P.SECTION = Q.SECTION AND P.SECTION IN ('embedded', 'news', 'zope', 'shells') AND T.PACKAGE = Q.ID AND P.ID <> Q.ID
