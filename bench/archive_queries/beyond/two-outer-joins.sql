-- Which database programs have a service, and which a daily job?
SELECT P.NAME, F.NAME, G.NAME FROM PACKAGE P
LEFT JOIN FILE F ON F.PACKAGE = P.ID AND F.DIRECTORY = (SELECT ID FROM DIRECTORY WHERE PATH = '/lib/systemd/system')
LEFT JOIN FILE G ON G.PACKAGE = P.ID AND G.DIRECTORY = (SELECT ID FROM DIRECTORY WHERE PATH = '/etc/cron.daily')
WHERE P.SECTION = 'database'
