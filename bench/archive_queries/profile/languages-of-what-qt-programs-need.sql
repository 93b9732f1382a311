-- In which languages is what Qt programs need?
SELECT T.PACKAGE, U.PACKAGE, U.NAME FROM TAG T, DEPENDENCY D, TAG U
WHERE T.NAME = 'uitoolkit::qt' AND D.PACKAGE = T.PACKAGE AND U.PACKAGE = D.TARGET AND U.FACET = 'implemented-in'
