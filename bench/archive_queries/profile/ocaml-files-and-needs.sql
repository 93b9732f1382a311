-- Which files does the OCaml team install, beside each need?
SELECT P.NAME, D.TARGET, F.NAME FROM PACKAGE P, MAINTAINER M, DEPENDENCY D, FILE F
WHERE M.NAME = 'Debian OCaml Maintainers' AND P.MAINTAINER = M.ID AND D.PACKAGE = P.ID AND F.PACKAGE = P.ID
