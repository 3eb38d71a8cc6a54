(* A hundred sieves of 8,192. *)
MODULE Sieve;
IMPORT Out;
CONST N = 8191;
VAR f: ARRAY 8192 OF BOOLEAN; r, i, k, c: INTEGER;
BEGIN
  FOR r := 1 TO 100 DO
    c := 0;
    FOR i := 0 TO N DO f[i] := TRUE END;
    FOR i := 2 TO N DO
      IF f[i] THEN
        c := c + 1;
        k := i + i;
        WHILE k <= N DO f[k] := FALSE; k := k + i END
      END
    END
  END;
  Out.Int(c, 0); Out.Ln
END Sieve.
