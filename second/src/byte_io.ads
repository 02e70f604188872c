--  Standard input as bytes or cut into lines, and standard output in large
--  pieces.  Only byte 10 ends a line; 0, 13 and 255 are bytes as any other.

with Machine; use Machine;

package Byte_IO is

   --  The next byte; Found is False at the end of the input.
   procedure Next_Byte (Byte : out Character; Found : out Boolean);

   --  Of a line no more is kept than is needed to know that it is too long
   --  for either program: a Length of Most_Kept stands for that or more.
   Most_Kept : constant := 129;

   type Line is record
      Length : Natural range 0 .. Most_Kept := 0;
      Bytes  : String (1 .. Most_Kept);
   end record;

   --  The next line, without its line end.  Not found at the end of the
   --  input; "A last line without a line end counts" if it has a byte.
   procedure Next_Line (L : out Line; Found : out Boolean);

   --  The kept bytes of a line.
   function Text (L : Line) return String is (L.Bytes (1 .. L.Length));

   procedure Put (Text : String);
   procedure Put_Line (Text : String);  --  with byte 10 behind it

   --  Numbers with single blanks between them, and byte 10.
   type Number_List is array (Positive range <>) of Ticks;
   procedure Put_Numbers (Numbers : Number_List);

   --  Writes what is still kept back.  To be called at the end.
   procedure Flush;

   --  Says what is wrong on standard error and ends the program: with status
   --  1 where a file cannot be read or written, with 2 for wrong arguments.
   procedure Fail (Message : String; Status : Positive);

end Byte_IO;
