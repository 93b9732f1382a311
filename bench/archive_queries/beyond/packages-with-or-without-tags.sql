-- Which tags have the packages for mail, those without any too?
SELECT P.NAME, T.NAME FROM PACKAGE P LEFT JOIN TAG T ON T.PACKAGE = P.ID WHERE P.SECTION = 'mail'
