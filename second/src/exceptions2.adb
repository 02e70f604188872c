--  Walk with one column more, "exc": 1 where the answer shows the running
--  task's exception (change request 6), which walk's own columns do not have.
--  It reads lines as walk does.

with Byte_IO; use Byte_IO;
with Carry_Out_Lines;
with Machine; use Machine;

procedure Exceptions2 is

   procedure Report
     (Number : Ticks; C : Command; Result : Answer; Behind : State) is
   begin
      Put_Numbers ((Number,
                    Ticks (C.Op),
                    Ticks (Result.Number),
                    Ticks (Result.Running),
                    Ticks (Result.Released),
                    Behind.Clock,
                    Boolean'Pos (Result.Failed)));
   end Report;

   procedure Walk_Lines is new Carry_Out_Lines (Report);

   Kernel : State;
   Number : Ticks := 0;

begin
   Put_Line ("n op code run rel clock exc");
   Walk_Lines (Kernel, Number);
   Flush;
end Exceptions2;
