(* Ten products of matrices of 60 by 60. *)
MODULE Matrix;
IMPORT Out;
CONST N = 60;
VAR a, b, c: ARRAY N, N OF INTEGER; i, j, k, s, r: INTEGER;
BEGIN
  FOR i := 0 TO N - 1 DO
    FOR j := 0 TO N - 1 DO a[i, j] := i + j; b[i, j] := i - j END
  END;
  FOR r := 1 TO 10 DO
    FOR i := 0 TO N - 1 DO
      FOR j := 0 TO N - 1 DO
        s := 0;
        FOR k := 0 TO N - 1 DO s := s + a[i, k] * b[k, j] END;
        c[i, j] := s
      END
    END
  END;
  Out.Int(c[3, 4], 0); Out.Ln
END Matrix.
