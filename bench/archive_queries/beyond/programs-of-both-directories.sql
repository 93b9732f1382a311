-- Which packages have a program in /usr/bin and one in /usr/sbin?
SELECT F.PACKAGE FROM FILE F, DIRECTORY R WHERE R.ID = F.DIRECTORY AND R.PATH = '/usr/bin'
INTERSECT SELECT F.PACKAGE FROM FILE F, DIRECTORY R WHERE R.ID = F.DIRECTORY AND R.PATH = '/usr/sbin'
