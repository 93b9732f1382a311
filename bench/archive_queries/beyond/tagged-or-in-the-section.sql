-- Which packages are for sound, by section or by tag?
SELECT P.NAME FROM PACKAGE P WHERE P.SECTION = 'sound' UNION SELECT P.NAME FROM PACKAGE P, TAG T WHERE T.PACKAGE = P.ID AND T.NAME = 'works-with::audio'
