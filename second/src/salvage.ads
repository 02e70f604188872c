--  Change request 5: what can be got from a torn tape.  The whole tape is
--  held, and each of its bytes is marked as kept or dropped; what is listed
--  and what is written are read off the marks.

with Ada.Containers.Vectors;
with Tapes; use Tapes;

package Salvage is

   --  For each byte of a tape, whether it is kept.
   type Marks is array (Natural range <>) of Boolean;

   --  Whether the tape begins with a header that the reader takes.
   function Begins_With_Header (Tape : Octets) return Boolean
     with Pre => Tape'First = 0;

   procedure Mark_Kept (Tape : Octets; Kept : out Marks)
     with Pre => Tape'First = 0 and then Kept'First = 0
                 and then Tape'Length = Kept'Length;

   --  "lists every dropped stretch by first byte and length"
   type Stretch is record
      First  : Natural;
      Length : Positive;
   end record;

   package Stretch_Vectors is new Ada.Containers.Vectors (Positive, Stretch);

   --  The stretches, in order; between two of them something is kept.
   function Dropped (Kept : Marks) return Stretch_Vectors.Vector;

   function Count_Of (Kept : Marks; Value : Boolean) return Natural;

end Salvage;
