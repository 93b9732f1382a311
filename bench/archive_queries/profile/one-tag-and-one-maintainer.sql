-- Which packages of one maintainer share a tag for a protocol?
SELECT P.NAME, Q.NAME, T.NAME FROM PACKAGE P, PACKAGE Q, TAG T, TAG U
WHERE P.MAINTAINER = Q.MAINTAINER AND T.PACKAGE = P.ID AND U.PACKAGE = Q.ID AND T.NAME = U.NAME AND T.FACET = 'protocol' AND U.FACET = 'protocol' AND P.ID < Q.ID
