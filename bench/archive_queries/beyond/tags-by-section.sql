-- How many tags has a package of each section, on average?
SELECT P.SECTION, COUNT(*) * 1.0 / COUNT(DISTINCT P.ID) FROM PACKAGE P, TAG T WHERE T.PACKAGE = P.ID GROUP BY P.SECTION
