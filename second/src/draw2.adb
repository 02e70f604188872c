--  Program "draw" of document 01, the second time: a first line with seed,
--  profile and count, then setup lines through an accepted start, then as
--  many drawn commands as the count says.

with Byte_IO;      use Byte_IO;
with Carry_Out_Lines;
with Command_Text; use Command_Text;
with Generator;    use Generator;
with Machine;      use Machine;

procedure Draw2 is

   --  Fields: n op a b value code run rel clock
   procedure Report
     (Number : Ticks; C : Command; Result : Answer; Behind : State) is
   begin
      Put_Numbers ((Number,
                    Ticks (C.Op),
                    Ticks (C.A),
                    Ticks (C.B),
                    C.Value,
                    Ticks (Result.Number),
                    Ticks (Result.Running),
                    Ticks (Result.Released),
                    Behind.Clock));
   end Report;

   --  "one line of zeros with the code"; its number is 0 too (READINGS 24)
   procedure Report_Zeros (Refused : Code) is
   begin
      Put_Numbers ((0, 0, 0, 0, 0, Ticks (Refused), 0, 0, 0));
   end Report_Zeros;

   procedure Set_Up is new Carry_Out_Lines (Report);

   Kernel : State;
   Number : Ticks := 0;  --  the first line has none (READINGS 25)

   procedure Draw_All (First : First_Line) is
      Seed    : Word_32 := First.Seed;
      Refused : Code;
      C       : Command;
      Result  : Answer;
   begin
      for I in 1 .. First.Count loop
         Draw (Kernel, First.Setup, Seed, Refused, C);
         pragma Assert (Refused = Accepted);  --  all of it was tested before
         Step (Kernel, C, Result);
         Number := Number + 1;
         Report (Number, C, Result, Kernel);
      end loop;
   end Draw_All;

   Current : Line;
   Found   : Boolean;
   Refused : Code;
   First   : First_Line;

begin
   Put_Line ("n op a b value code run rel clock");
   Next_Line (Current, Found);
   Read_First_Line (Text (Current), Refused, First);
   if not Found then
      Refused := Bad_Line;  --  "absent (14)"
   end if;
   if Refused /= Accepted then
      Report_Zeros (Refused);
      Flush;
      return;
   end if;
   --  "then setup lines, through an accepted start, then reads no more"
   Set_Up (Kernel, Number, Until_Start => True);
   if Kernel.Started then
      Draw_All (First);
   else
      Report_Zeros (Early);
   end if;
   Flush;
end Draw2;
