MODULE Reverse;
  IMPORT Stack, Out;
  VAR i, x: INTEGER;

  PROCEDURE Underflow*;
    VAR y: INTEGER;
  BEGIN
    Stack.Pop(y)
  END Underflow;

BEGIN
  FOR i := 1 TO 5 DO Stack.Push(i * i) END;
  WHILE Stack.count > 0 DO Stack.Pop(x); Out.Int(x, 4) END;
  Out.Ln
END Reverse.
