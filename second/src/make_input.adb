--  Makes test input for walk, draw, even_cases2 or exceptions2 from a number,
--  on standard output.  The same kind and number make the same bytes on every
--  machine.  Of the last kind every line is a command, so that a host that has
--  no text but commands reads it.
--
--     make_input walk|draw|even|commands NUMBER

with Ada.Command_Line; use Ada.Command_Line;
with Byte_IO;
with Decimals;
with Draw_Inputs;
with Even_Inputs;
with Fresh_Numbers;
with Scripts;
with Walk_Inputs;

procedure Make_Input is

   function Is_Kind (Text : String) return Boolean is
     (Text = "walk" or else Text = "draw" or else Text = "even"
      or else Text = "commands");

begin
   if Argument_Count /= 2
     or else not Is_Kind (Argument (1))
     or else not Decimals.Is_Decimal (Argument (2), 1_000_000_000)
   then
      Byte_IO.Fail ("usage: make_input walk|draw|even|commands NUMBER,"
                    & " the number 0 to 1000000000, without leading zeros",
                    Status => 2);
   end if;
   Fresh_Numbers.Start (Argument (1) (1), Decimals.Value (Argument (2)));
   Scripts.Only_Commands := Argument (1) = "commands";
   if Argument (1) = "walk" or else Scripts.Only_Commands then
      Walk_Inputs.Make;
   elsif Argument (1) = "draw" then
      Draw_Inputs.Make;
   else
      Even_Inputs.Make;
   end if;
   Byte_IO.Flush;
end Make_Input;
