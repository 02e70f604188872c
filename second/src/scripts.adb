with Byte_IO;       use Byte_IO;
with Command_Text;  use Command_Text;
with Fresh_Numbers; use Fresh_Numbers;
with Odd_Lines;     use Odd_Lines;

package body Scripts is

   Line_End : constant String := (1 => Character'Val (10));

   Is_First : Boolean := True;

   function Some_Mischief return Mischief is
     (case Below (6) is
         when 0      => (others => 0),
         when 1      => (Malformed => 2, Refused => 5, Random => 0),
         when 2      => (Malformed => 5, Refused => 20, Random => 5),
         when 3      => (Malformed => 0, Refused => 30, Random => 0),
         when 4      => (Malformed => 40, Refused => 5, Random => 5),
         when others => (Malformed => 5, Refused => 10, Random => 2));

   procedure Emit (Line : String) is
      C       : Command;
      Form    : Code;
      Ignored : Answer;
   begin
      Read_Command (Line, Form, C);
      if Only_Commands and then Form /= Accepted then
         return;
      end if;
      if not Is_First then
         Put (Line_End);
      end if;
      Is_First := False;
      Put (Line);
      if Form = Accepted then
         Step (Kernel, C, Ignored);
      end if;
   end Emit;

   procedure Emit_Command (C : Command; Likes : Taste; Harm : Mischief) is
   begin
      if Chance (Harm.Malformed) then
         Emit (Spoiled (Image (C)));
      end if;
      if Chance (Harm.Refused) then
         Emit (Image (Refused_Command (Kernel, Likes)));
      elsif Chance (Harm.Random) then
         Emit (Image (Random_Command (Kernel)));
      else
         Emit (Image (C));
      end if;
   end Emit_Command;

   procedure Emit_Setup (Likes : Taste; Harm : Mischief) is
      Tasks   : Natural :=
        (case Below (5) is
            when 0      => Below (4),
            when 1      => 31,
            when others => Between (2, 31));
      Objects : Natural := Below (8);
   begin
      while Tasks + Objects > 0 and then not Kernel.Started loop
         if Below (Tasks + Objects) < Tasks then
            Emit_Command (New_Task (Kernel, Likes), Likes, Harm);
            Tasks := Tasks - 1;
         else
            Emit_Command (New_Object (Kernel, Likes), Likes, Harm);
            Objects := Objects - 1;
         end if;
      end loop;
   end Emit_Setup;

   procedure Emit_Start (Harm : Mischief) is
   begin
      if Chance (Harm.Malformed) then
         Emit (Spoiled ("start"));
      end if;
      Emit ("start");
   end Emit_Start;

   procedure Finish is
   begin
      if not Is_First and then Chance (85) then
         Put (Line_End);
      end if;
   end Finish;

end Scripts;
