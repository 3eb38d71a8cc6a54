MODULE Queens; IMPORT Out;
CONST N = 8;
VAR column: ARRAY N OF BOOLEAN; up, down: ARRAY 2 * N OF BOOLEAN; found, k: INTEGER;
PROCEDURE Place(row: INTEGER);
VAR c: INTEGER;
BEGIN
  IF row = N THEN INC(found)
  ELSE
    FOR c := 0 TO N - 1 DO
      IF ~column[c] & ~up[row + c] & ~down[row - c + N] THEN
        column[c] := TRUE; up[row + c] := TRUE; down[row - c + N] := TRUE;
        Place(row + 1);
        column[c] := FALSE; up[row + c] := FALSE; down[row - c + N] := FALSE
      END
    END
  END
END Place;
BEGIN
  FOR k := 1 TO 40 DO Place(0) END;
  Out.Int(found, 0); Out.Ln
END Queens.
