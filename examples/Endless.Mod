MODULE Endless;
  IMPORT Out;
  VAR i: INTEGER;

  PROCEDURE Show*;
  BEGIN
    Out.Int(i, 0); Out.Ln
  END Show;

BEGIN
  WHILE TRUE DO INC(i) END
END Endless.
