-- Which packages of one source are tagged as program and as library?
SELECT P.NAME, Q.NAME FROM PACKAGE P, PACKAGE Q, TAG T, TAG U
WHERE P.SOURCE = Q.SOURCE AND T.PACKAGE = P.ID AND T.NAME = 'role::program' AND U.PACKAGE = Q.ID AND U.NAME = 'role::shared-lib'
