-- Which Python packages does another package break?
SELECT P.NAME FROM PACKAGE P WHERE P.SECTION = 'python' AND EXISTS (SELECT 1 FROM DEPENDENCY D WHERE D.TARGET = P.ID AND D.KIND = 'Breaks')
