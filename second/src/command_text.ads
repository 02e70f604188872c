--  "Text and the two programs": command lines and draw's first line.

with Generator; use Generator;
with Machine;   use Machine;

package Command_Text is

   --  "at most 64 bytes before the line end"; the first line of draw is "all
   --  on one line of at most 128 bytes"
   Longest_Command    : constant := 64;
   Longest_First_Line : constant := 128;

   subtype Known_Op is Natural range Op_Create .. Last_Op;

   --  Whether a line, without its line end, has the form of a command.
   --  Where it has not, Number is 14 and the command is all zeros.
   procedure Read_Command
     (Line : String; Number : out Code; C : out Command);

   --  The one line that a command has.
   function Image (C : Command) return String
     with Pre => C.Op in Known_Op;

   --  The word of a command.
   function Name (Op : Known_Op) return String;

   type First_Line is record
      Seed  : Word_32 := 0;
      Setup : Profile;
      Count : Natural := 0;
   end record;

   --  The first line of draw: 0, or "(14, 17 or 18, tested in that order)".
   procedure Read_First_Line
     (Line : String; Number : out Code; First : out First_Line);

end Command_Text;
