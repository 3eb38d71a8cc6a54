MODULE Fibonacci;
  IMPORT Out;

  PROCEDURE Fib*(n: INTEGER): INTEGER;
    VAR f: INTEGER;
  BEGIN
    IF n < 2 THEN f := n ELSE f := Fib(n - 1) + Fib(n - 2) END
    RETURN f
  END Fib;

  PROCEDURE Show*;
    VAR i: INTEGER;
  BEGIN
    FOR i := 0 TO 10 DO Out.Int(Fib(i), 4) END;
    Out.Ln
  END Show;

BEGIN
  Show
END Fibonacci.
