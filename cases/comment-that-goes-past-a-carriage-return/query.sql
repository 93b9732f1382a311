select v from n where V=-- c'no'
'it''s'