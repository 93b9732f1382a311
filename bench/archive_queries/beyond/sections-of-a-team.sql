-- In which sections has the GNOME team packages?
SELECT DISTINCT P.SECTION FROM PACKAGE P, MAINTAINER M WHERE P.MAINTAINER = M.ID AND M.NAME = 'Debian GNOME Maintainers'
