-- Which files of other packages have the name of a file of an editor?
SELECT P.NAME, F.NAME, G.PACKAGE FROM PACKAGE P, FILE F, FILE G
WHERE P.SECTION = 'editors' AND P.SIZE > 1000000 AND F.PACKAGE = P.ID AND G.NAME = F.NAME
