-- Does any package of the section zope have a service?
SELECT P.NAME, F.NAME FROM PACKAGE P, FILE F, DIRECTORY R
WHERE P.SECTION = 'zope' AND F.PACKAGE = P.ID AND R.ID = F.DIRECTORY AND R.PATH = '/lib/systemd/system'
