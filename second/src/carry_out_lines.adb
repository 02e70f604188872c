with Byte_IO;      use Byte_IO;
with Command_Text; use Command_Text;

procedure Carry_Out_Lines
  (Kernel      : in out State;
   Number      : in out Ticks;
   Until_Start : Boolean := False;
   Last        : Ticks   := Ticks'Last) is

   --  "A line refused with 14 has op, operands and released 0, the running
   --  task and clock as they stand, and changes nothing."
   procedure Carry_Out (Bytes : String) is
      C      : Command;
      Form   : Code;
      Result : Answer;
   begin
      Read_Command (Bytes, Form, C);
      if Form = Bad_Line then
         Result := (Bad_Line, Running (Kernel), others => <>);
      else
         Step (Kernel, C, Result);
      end if;
      Report (Number, C, Result, Kernel);
   end Carry_Out;

   Current : Line;
   Found   : Boolean;

begin
   while not (Until_Start and then Kernel.Started) and then Number < Last loop
      Next_Line (Current, Found);
      exit when not Found;
      Number := Number + 1;
      Carry_Out (Text (Current));
   end loop;
end Carry_Out_Lines;
