--  Whole tapes for the judge: right ones, ones with a wrong answer, damaged
--  ones, and both at once in either order.

with Machine;       use Machine;
with Octet_Vectors;
with Tapes;         use Tapes;

package Tape_Inputs is

   type Kind is
     (Right,          --  each answer is the rules'
      Odd,            --  so too, with operands that the op has no place for
      Spoilt,         --  right but for one answer
      Twice,          --  right but for two answers
      Unseen,         --  one answered as if an operand without a place were 0
      Lost,           --  a record dropped, doubled or out of its turn
      Header,         --  a record 0 that is no header, or one of edition 2
      Damaged,        --  another record that is none
      Spoilt_First,   --  a wrong answer, and damage behind it
      Damaged_First,  --  damage, and a wrong answer behind it
      Both,           --  damage and a wrong answer in one record
      Cut,            --  the end cut off, at any byte
      Appended,       --  bytes behind the end
      Shifted,        --  a byte dropped or put in
      Flipped,        --  one bit changed, anywhere
      Noise,          --  no tape
      Empty,          --  no byte
      Newer,          --  right, and the header names edition 2
      Unknown,        --  right, and the header names an edition of nobody
      Editions);      --  any kind before, the header's edition changed so

   --  One of those that document 01 has: a number makes the tape that it made
   --  before change request 4, but for closings that are of ops 12 to 15 now
   --  (change request 6).
   function Some_Kind return Kind
     with Post => Some_Kind'Result in Right .. Empty;

   --  How many command records: mostly few, at times thousands.
   function Some_Length return Natural;

   --  A tape.  Length is the count of command records before what the kind
   --  does to it; kinds that need a record or two have them.
   function Made
     (What : Kind; Length : Natural) return Octet_Vectors.Vector;

   --  Writes one.
   procedure Make (What : Kind; Length : Natural);

   --  Parts of tapes that Torn_Inputs takes too: a record that is none any
   --  more, the tape's header at times; a seed; a value that is none; an
   --  edition that nobody has.
   function Damaged (Bytes, First : Record_Bytes) return Record_Bytes;
   function Some_Seed return Ticks;
   function Some_Bad_Seed return Ticks;
   function Some_Other_Edition return Octet;
   function Some_Octet return Octet;

end Tape_Inputs;
