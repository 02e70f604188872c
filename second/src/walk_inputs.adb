with Command_Text;  use Command_Text;
with Fresh_Numbers; use Fresh_Numbers;
with Odd_Lines;     use Odd_Lines;
with Scripts;       use Scripts;
with Steering;      use Steering;

package body Walk_Inputs is

   --  After Start: mostly accepted commands.
   procedure Emit_Run (Lines : Natural; Likes : Taste; Harm : Mischief) is
   begin
      for I in 1 .. Lines loop
         Emit_Command (Accepted_Command (Kernel, Likes), Likes, Harm);
      end loop;
   end Emit_Run;

   --  The clock goes near its end in one step.
   procedure Emit_Leap is
   begin
      Emit ("advance 184467440737095515"
            & (case Below (4) is
                  when 0      => "00",
                  when 1      => "90",
                  when 2      => "14",
                  when others => "50"));
   end Emit_Leap;

   procedure Make_Schedule is
      Likes : constant Taste := Some_Taste;
      Harm  : constant Mischief := Some_Mischief;
      Lines : constant Natural :=
        (case Below (60) is
            when 0 .. 5  => Below (20),
            when 6 .. 9  => Between (1000, 3000),
            when 10      => Between (7000, 9000),  --  over 64 KiB
            when others  => Between (50, 400));
   begin
      if Chance (5) then
         Emit_Start (Harm);  --  then all the setup is Late
      end if;
      Emit_Setup (Likes, Harm);
      if Chance (95) then
         Emit_Start (Harm);
      end if;
      if Kernel.Started and then Chance (20) then
         Emit_Leap;
      end if;
      Emit_Run (Lines, Likes, Harm);
   end Make_Schedule;

   --  Commands with no steering at all.
   procedure Make_Random is
      Start_At : constant Natural := Below (60);
   begin
      for I in 1 .. Between (20, 200) loop
         Emit (if I = Start_At then "start"
               else Image (Random_Command (Kernel)));
      end loop;
   end Make_Random;

   --  Lines of bad form alone, and bytes of any kind.
   procedure Make_Malformed is
   begin
      for I in 1 .. Between (1, 60) loop
         Emit (if Chance (30) then Noise (Below (200))
               else Spoiled (Image (Random_Command (Kernel))));
      end loop;
   end Make_Malformed;

   --  Inputs that are hardly there.
   procedure Make_Tiny is
   begin
      case Below (6) is
         when 0 | 1  => null;              --  no byte at all
         when 2      => Emit ("");         --  nothing, or one empty line
         when 3      => Emit ("start");
         when 4      =>
            Emit ("");
            Emit ("");
         when others => Emit (Noise (Between (1, 3)));
      end case;
   end Make_Tiny;

   procedure Make is
   begin
      case Below (40) is
         when 0      => Make_Tiny;
         when 1 | 2  => Make_Malformed;
         when 3 | 4  => Make_Random;
         when others => Make_Schedule;
      end case;
      Finish;
   end Make;

end Walk_Inputs;
