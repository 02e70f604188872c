--  Lines of a script on their way out.  Each is read and stepped as the
--  second program would, so that the maker knows the state it has reached.

with Machine;  use Machine;
with Steering; use Steering;

package Scripts is

   Kernel : State;  --  after the lines so far

   --  Lines that are no command are left out.
   Only_Commands : Boolean := False;

   --  What goes wrong, in percent of the lines.
   type Mischief is record
      Malformed : Natural := 0;
      Refused   : Natural := 0;
      Random    : Natural := 0;
   end record;

   function Some_Mischief return Mischief;

   --  One line; a line end goes before it if it is not the first.
   procedure Emit (Line : String);

   --  One command line, or now and then what the mischief makes of it.
   procedure Emit_Command (C : Command; Likes : Taste; Harm : Mischief);

   --  Creates and objects in some order, with mischief.
   procedure Emit_Setup (Likes : Taste; Harm : Mischief);

   --  The accepted start, with tries before it that the mischief spoils.
   procedure Emit_Start (Harm : Mischief);

   --  The last line end, mostly.
   procedure Finish;

end Scripts;
