(* A counting loop in a procedure. *)
MODULE CountLocal;

PROCEDURE Count;
VAR i: INTEGER;
BEGIN
  i := 0;
  WHILE i < 20000000 DO i := i + 1 END
END Count;

BEGIN
  Count
END CountLocal.
