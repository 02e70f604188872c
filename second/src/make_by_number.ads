--  What the makers of tapes have alike: a tape from a number, on standard
--  output.  The same arguments make the same bytes on every machine.
--
--     PROGRAM NUMBER [KIND [LENGTH]]
--
--  LENGTH counts command records.  Kind and length are drawn where they are
--  not given.  Letter keeps the numbers of two makers apart.

generic
   Program : String;
   Letter  : Character;
   type Kind is (<>);
   with function Some_Kind return Kind;
   with function Some_Length return Natural;
   with procedure Make (What : Kind; Length : Natural);
procedure Make_By_Number;
