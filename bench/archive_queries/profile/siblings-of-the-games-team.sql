-- Which packages have the same maintainer, a small one and a large one?
SELECT P.NAME, Q.NAME FROM PACKAGE P, PACKAGE Q, MAINTAINER M
WHERE M.NAME = 'Debian Games Team' AND P.MAINTAINER = M.ID AND Q.MAINTAINER = M.ID AND P.SIZE < 100000 AND Q.SIZE > 10000000
