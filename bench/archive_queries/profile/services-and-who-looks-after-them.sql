-- Which network services have a unit, and who looks after them?
SELECT F.NAME, P.NAME, M.NAME FROM DIRECTORY R, FILE F, PACKAGE P, MAINTAINER M, TAG T
WHERE R.PATH = '/lib/systemd/system' AND F.DIRECTORY = R.ID AND P.ID = F.PACKAGE AND M.ID = P.MAINTAINER AND T.PACKAGE = P.ID AND T.NAME = 'network::server'
