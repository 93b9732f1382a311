-- Which programs for administration aren't of a team?
SELECT P.NAME FROM PACKAGE P WHERE P.SECTION = 'admin' AND P.MAINTAINER NOT IN (SELECT ID FROM MAINTAINER WHERE NAME LIKE '%Team%' OR NAME LIKE '%Maintainers%' OR NAME LIKE '%Group%')
