MODULE Stack;
  CONST size = 8;
  VAR items: ARRAY size OF INTEGER;
    count*: INTEGER;

  PROCEDURE Push*(x: INTEGER);
  BEGIN
    items[count] := x;
    INC(count)
  END Push;

  PROCEDURE Pop*(VAR x: INTEGER);
  BEGIN
    ASSERT(count > 0);
    DEC(count);
    x := items[count]
  END Pop;
END Stack.
