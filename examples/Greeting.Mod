MODULE Greeting;
  IMPORT In, Out;
  VAR name: ARRAY 32 OF CHAR;
    age: INTEGER;
BEGIN
  Out.String("Who are you, and how old?"); Out.Ln;
  In.Name(name);
  In.Int(age);
  IF In.Done THEN
    Out.String("Hello, "); Out.String(name);
    Out.String(", next year you are "); Out.Int(age + 1, 0); Out.Ln
  ELSE
    Out.String("That is no answer."); Out.Ln
  END
END Greeting.
