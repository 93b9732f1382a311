-- Which packages of the section libs aren't called so?
SELECT P.NAME, M.NAME FROM PACKAGE P, MAINTAINER M WHERE P.SECTION = 'libs' AND P.NAME NOT LIKE 'lib%' AND M.ID = P.MAINTAINER
