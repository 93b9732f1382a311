-- Which libraries with a pkgconfig file need zlib?
SELECT F.NAME, P.NAME FROM DIRECTORY R, FILE F, PACKAGE P, DEPENDENCY D, PACKAGE Q
WHERE R.PATH = '/usr/lib/x86_64-linux-gnu/pkgconfig' AND F.DIRECTORY = R.ID AND P.ID = F.PACKAGE AND D.PACKAGE = P.ID AND Q.ID = D.TARGET AND Q.NAME = 'zlib1g-dev'
