--  Program "walk" of document 01, the second time: reads lines from standard
--  input and prints for each its number, op, code, running, released, clock.

with Byte_IO; use Byte_IO;
with Carry_Out_Lines;
with Machine; use Machine;

procedure Walk2 is

   procedure Report
     (Number : Ticks; C : Command; Result : Answer; Behind : State) is
   begin
      Put_Numbers ((Number,
                    Ticks (C.Op),
                    Ticks (Result.Number),
                    Ticks (Result.Running),
                    Ticks (Result.Released),
                    Behind.Clock));
   end Report;

   procedure Walk_Lines is new Carry_Out_Lines (Report);

   Kernel : State;
   Number : Ticks := 0;

begin
   Put_Line ("n op code run rel clock");
   Walk_Lines (Kernel, Number);
   Flush;
end Walk2;
