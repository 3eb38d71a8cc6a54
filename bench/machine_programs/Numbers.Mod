(* A hundred thousand numbers written. *)
MODULE Numbers;
IMPORT Out;
VAR i: INTEGER;
BEGIN
  FOR i := 1 TO 100000 DO Out.Int(i, 0); Out.Ln END
END Numbers.
