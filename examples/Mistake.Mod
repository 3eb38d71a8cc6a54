MODULE Mistake;
  VAR x: INTEGER;
BEGIN
  x := TRUE
END Mistake.
