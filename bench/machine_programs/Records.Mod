(* A million calls with a record as a VAR parameter. *)
MODULE Records;
IMPORT Out;
TYPE P = RECORD x, y, z: INTEGER END;
VAR ps: ARRAY 100 OF P; i, j, s: INTEGER;

PROCEDURE Move(VAR p: P; d: INTEGER);
BEGIN
  p.x := p.x + d; p.y := p.y - d; p.z := p.z + p.x
END Move;

BEGIN
  FOR j := 1 TO 10000 DO
    FOR i := 0 TO 99 DO Move(ps[i], i) END
  END;
  s := 0;
  FOR i := 0 TO 99 DO s := s + ps[i].x + ps[i].z END;
  Out.Int(s, 0); Out.Ln
END Records.
