(* A counting loop in a module's body. *)
MODULE Count;
VAR i, n: INTEGER;
BEGIN
  n := 20000000;
  WHILE i < n DO i := i + 1 END
END Count.
