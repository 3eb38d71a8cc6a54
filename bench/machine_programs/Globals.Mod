MODULE Globals; IMPORT Out;
VAR seed, hits, rounds: INTEGER; bins: ARRAY 16 OF INTEGER; k: INTEGER;
PROCEDURE Throw;
VAR i: INTEGER;
BEGIN
  FOR i := 1 TO 500000 DO
    seed := (seed * 1277 + 13849) MOD 65536;
    IF seed MOD 16 < 5 THEN INC(hits) ELSE rounds := rounds + 1 END;
    INC(bins[seed DIV 4096])
  END
END Throw;
BEGIN
  seed := 7; Throw; Throw;
  Out.Int(hits, 0); Out.Int(rounds, 8);
  FOR k := 0 TO 15 DO Out.Int(bins[k], 8) END;
  Out.Ln
END Globals.
