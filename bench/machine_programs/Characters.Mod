(* Texts in arrays of characters: made upper case, compared, measured. *)
MODULE Characters;
IMPORT Out;
VAR a, b: ARRAY 64 OF CHAR; i, j, n: INTEGER;

PROCEDURE Length(VAR s: ARRAY OF CHAR): INTEGER;
VAR i: INTEGER;
BEGIN
  i := 0;
  WHILE (i < LEN(s)) & (s[i] # 0X) DO i := i + 1 END
  RETURN i
END Length;

BEGIN
  a := "the quick brown fox jumps over the lazy dog";
  n := 0;
  FOR j := 1 TO 100000 DO
    i := 0;
    WHILE a[i] # 0X DO
      IF (a[i] >= "a") & (a[i] <= "z") THEN b[i] := CHR(ORD(a[i]) - 32) ELSE b[i] := a[i] END;
      i := i + 1
    END;
    b[i] := 0X;
    IF a < b THEN n := n + 1 ELSE n := n + Length(b) END
  END;
  Out.String(b); Out.Int(n, 0); Out.Ln
END Characters.
