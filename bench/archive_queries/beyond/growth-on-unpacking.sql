-- Which packages grow more than twenty times when they are unpacked, and who looks after them?
SELECT P.NAME, M.NAME FROM PACKAGE P, MAINTAINER M WHERE P.INSTALLED / 20 > P.SIZE / 1024 AND M.ID = P.MAINTAINER
