SELECT name FROM pupils WHERE class = '5A'
