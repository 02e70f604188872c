--  Program "show" (docs/SHOW.md), the second time: walk, and under each row the
--  state behind it, the machine's and that of the chip's queue beside it.
--
--     show2 [N]
--
--  With a number N only line N is printed, and the lines behind it are not
--  read.  Status 2 where N is no such number, or there are fewer lines.

with Ada.Command_Line; use Ada.Command_Line;
with Byte_IO;          use Byte_IO;
with Carry_Out_Lines;
with Chip_Queue;
with Decimals;         use Decimals;
with Machine;          use Machine;
with State_Text;

procedure Show2 is

   --  "N is 1 to 2^64-2"
   Last_Asked : constant Ticks := 2 ** 64 - 2;

   --  The line to be printed; 0 for each.
   function Asked return Ticks is
   begin
      if Argument_Count = 0 then
         return 0;
      elsif Argument_Count > 1
        or else not Is_Decimal (Argument (1), Last_Asked)
        or else Argument (1) = "0"
      then
         Fail ("usage: show2 [N], N being the number of a line, from 1 to "
               & Image (Last_Asked) & ", without leading zeros", Status => 2);
      end if;
      return Value (Argument (1));
   end Asked;

   Only : constant Ticks := Asked;

   Chip   : Chip_Queue.Queue;
   Runner : Task_Id := Idle;  --  who ran before the line

   --  The queue behind an accepted command.  Neither a delay nor a Wake moves
   --  the clock, so it may be read behind the step.
   procedure Follow (C : Command; Released : Task_Id; Clock : Ticks) is
      Woken : Task_Id;
   begin
      if C.Op = Op_Delay and then C.Value > Clock then
         Chip_Queue.Delay_Until (Chip, Runner, C.Value);
      elsif C.Op = Op_Wake then
         Chip_Queue.Wake (Chip, Clock, Woken);
         pragma Assert (Woken = Released);
      end if;
   end Follow;

   procedure Report
     (Number : Ticks; C : Command; Result : Answer; Behind : State) is
   begin
      if Result.Number = Accepted then
         Follow (C, Result.Released, Behind.Clock);
      end if;
      Runner := Result.Running;
      if Only in 0 | Number then
         Put_Numbers ((Number,
                       Ticks (C.Op),
                       Ticks (Result.Number),
                       Ticks (Result.Running),
                       Ticks (Result.Released),
                       Behind.Clock));
         State_Text.Put_State (Behind, Result.Failed, Chip);
      end if;
   end Report;

   procedure Show_Lines is new Carry_Out_Lines (Report);

   Kernel : State;
   Number : Ticks := 0;

begin
   Put_Line ("n op code run rel clock");
   Show_Lines (Kernel, Number,
               Last => (if Only = 0 then Ticks'Last else Only));
   Flush;
   if Number < Only then
      Fail ("there is no line " & Image (Only) & ": the input has "
            & Image (Number), Status => 2);
   end if;
end Show2;
