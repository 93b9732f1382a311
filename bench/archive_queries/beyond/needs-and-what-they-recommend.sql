-- What do shells need, and what does that recommend, if anything?
SELECT P.NAME, D.TARGET, E.TARGET FROM PACKAGE P JOIN DEPENDENCY D ON D.PACKAGE = P.ID LEFT JOIN DEPENDENCY E ON E.PACKAGE = D.TARGET AND E.KIND = 'Recommends' WHERE P.SECTION = 'shells'
