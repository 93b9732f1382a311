SELECT A.X FROM R A, R B, R C, R D, S E, S F, S G WHERE A.Y = B.X AND B.Y = C.X AND C.Y = D.X AND D.Y = A.X AND E.Y = F.X AND F.Y = G.X AND (E.X < F.Y OR F.X <> G.Y)
