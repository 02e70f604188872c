--  "Tape" of document 01: the form of a record, read and written.  Bytes are
--  numbered from 0, as places on a tape are.

with Machine; use Machine;

package Tapes is

   type Octet is mod 2 ** 8;

   --  "Each record is 16 bytes"
   Record_Length : constant := 16;
   type Octets is array (Natural range <>) of Octet;
   subtype Record_Bytes is Octets (0 .. Record_Length - 1);

   --  "op, a, b, code, running, released, one byte each, then value"
   type Fields is record
      Op, A, B                  : Octet := 0;
      Number, Running, Released : Octet := 0;
      Value                     : Ticks := 0;
   end record;

   --  "Tapes so made carry edition 2 in a; readers take 1 and 2 and refuse
   --  others" (change request 4).
   subtype Known_Edition is Octet range 1 .. 2;

   --  The header's fields: "op 0, a = 1 (edition), the next four bytes 0,
   --  value = seed"; in a any edition that is known.
   function Header (Seed : Ticks; By : Known_Edition := 1) return Fields is
     ((Op => 0, A => By, Value => Seed, others => 0));

   --  The bytes of a record, the mark in front, and back.
   function Bytes_Of (F : Fields) return Record_Bytes;
   function Fields_Of (Bytes : Record_Bytes) return Fields;

   --  What the reader says of the 16 bytes at place 0: 0, 15 or 17.
   function Refusal_Of_Header (Bytes : Record_Bytes) return Code;

   --  What it says of 16 bytes elsewhere: 0 or 15.
   function Refusal_Of_Command (Bytes : Record_Bytes) return Code;

   function Command_Of (F : Fields) return Command is
     ((Natural (F.Op), Natural (F.A), Natural (F.B), F.Value));

   --  The answer that a command record holds: no exception, "Records do not
   --  carry it" (change request 6).
   function Answer_Of (F : Fields) return Answer
     with Pre => Refusal_Of_Command (Bytes_Of (F)) = Accepted;

   --  The record of a command and its answer.
   function Fields_Of (C : Command; Result : Answer) return Fields
     with Pre => C.Op in Op_Create .. Last_Op
                 and then C.A <= 255 and then C.B <= 255;

end Tapes;
