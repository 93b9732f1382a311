-- How many packages has each section, and how large are they together?
SELECT SECTION, COUNT(*), SUM(SIZE) FROM PACKAGE GROUP BY SECTION ORDER BY COUNT(*) DESC
