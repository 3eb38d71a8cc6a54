(* Calls of a function procedure. *)
MODULE Fib;
IMPORT Out;

PROCEDURE F(n: INTEGER): INTEGER;
VAR r: INTEGER;
BEGIN
  IF n < 2 THEN r := n ELSE r := F(n - 1) + F(n - 2) END
  RETURN r
END F;

BEGIN
  Out.Int(F(29), 0); Out.Ln
END Fib.
