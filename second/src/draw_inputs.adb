with Ada.Strings.Unbounded; use Ada.Strings.Unbounded;
with Command_Text;          use Command_Text;
with Decimals;              use Decimals;
with Fresh_Numbers;         use Fresh_Numbers;
with Machine;               use Machine;
with Odd_Lines;             use Odd_Lines;
with Scripts;               use Scripts;
with Steering;              use Steering;

package body Draw_Inputs is

   function Decimal (N : Natural) return String is (Image (Ticks (N)));

   ---------------------------
   -- Words of a first line --
   ---------------------------

   function Good_Seed return String is
     (case Below (8) is
         when 0      => "1",
         when 1      => "4294967295",
         when 2      => "2647435461",
         when 3      => "2147483648",
         when others => Image (1 + Any mod 4_294_967_295));

   --  For 17: sign, zero, leading zero, too large, too long, other bytes.
   function Bad_Seed_Word return String is
     (case Below (16) is
         when 0      => "0",
         when 1      => "-1647531835",
         when 2      => "+1",
         when 3      => "-1",
         when 4      => "01",
         when 5      => "00",
         when 6      => "4294967296",
         when 7      => "4294967297",
         when 8      => "12345678901",
         when 9      => "99999999999",
         when 10     => "18446744073709551617",
         when 11     => "0x1",
         when 12     => "seed",
         when 13     => "1" & Character'Val (Between (128, 255)),
         when 14     => "1" & Character'Val (13 * Below (2)),
         when others => (1 => Character'Val (9)));

   function Good_Span return String is
     (case Below (8) is
         when 0      => "1",
         when 1      => "2",
         when 2      => "1000000",
         when 3 | 4  => Decimal (Between (1, 10)),
         when others => Decimal (Between (1, 300)));

   --  For 18.
   function Bad_Span return String is
     (case Below (4) is
         when 0      => "0",
         when 1      => "1000001",
         when 2      => "4294967295",
         when others => "1001000");

   --  For 18.
   function Bad_Weight return String is
     (case Below (4) is
         when 0      => "101",
         when 1      => "4294967295",
         when 2      => "256",
         when others => "1000");

   --  For 14: what is no decimal of 32 bits.
   function Bad_Number return String is
     (case Below (12) is
         when 0      => "4294967296",
         when 1      => "18446744073709551616",
         when 2      => "01",
         when 3      => "00",
         when 4      => "+1",
         when 5      => "-1",
         when 6      => "",
         when 7      => "x",
         when 8      => "1" & Character'Val (13),
         when 9      => "1" & Character'Val (0),
         when 10     => "1.0",
         when others => "4294967300");

   function Some_Weights (Harm : Natural) return String is
      Style : constant Natural := Below (4);
      Text  : Unbounded_String;
   begin
      for Kind in 1 .. 8 loop
         if Chance (Harm) then
            Append (Text, " " & Bad_Weight);
         elsif Style = 0 then
            Append (Text, " 10");
         elsif Style = 1 and then Kind /= 2 then
            Append (Text, " " & Decimal (100 * Below (2)));
         elsif Kind = 2 then
            Append (Text, " " & Decimal (Between (1, 30)));
         else
            Append (Text, " " & Decimal (Below (101)));
         end if;
      end loop;
      return To_String (Text);
   end Some_Weights;

   --  Mostly small, with a few large.
   function Good_Count return String is
     (case Below (100) is
         when 0      => Decimal (Between (20_000, 30_000)),
         when 1 .. 4 => Decimal (Between (1000, 5000)),
         when 5      => "1",
         when others => Decimal (Between (1, 300)));

   function Bad_Count return String is
     (case Below (5) is
         when 0      => "0",
         when 1      => "100001",
         when 2      => "4294967297",
         when 3      => "001",
         when others => "18446744073709551617");

   -----------------
   -- First lines --
   -----------------

   function Composed (Seed, Span, Weights, Count : String) return String is
     ("seed " & Seed & " span " & Span & " weights" & Weights
      & " count " & Count);

   function Good_Line return String is
      Seed    : constant String := Good_Seed;
      Span    : constant String := Good_Span;
      Weights : constant String := Some_Weights (Harm => 0);
      Count   : constant String := Good_Count;
   begin
      return Composed (Seed, Span, Weights, Count);
   end Good_Line;

   --  Each of the four parts may be bad in the way of 14, 17 or 18, alone or
   --  with others, so that their order shows.
   function Bad_Parts_Line return String is
      Seed    : constant String :=
        (if Chance (50) then Bad_Seed_Word else Good_Seed);
      Span    : constant String :=
        (case Below (6) is
            when 0      => Bad_Number,
            when 1 | 2  => Bad_Span,
            when others => Good_Span);
      Weights : constant String :=
        (case Below (6) is
            when 0      => Some_Weights (Harm => 20),
            when 1      => " 1 0 1 1 1 1 1 1",
            when 2      => " 1 1 1 1 1 1 1 " & Bad_Number,
            when others => Some_Weights (Harm => 0));
      Count   : constant String :=
        (if Chance (15) then Bad_Count else Good_Count);
   begin
      return Composed (Seed, Span, Weights, Count);
   end Bad_Parts_Line;

   --  All right but the seed, often a signed one.
   function Bad_Seed_Line return String is
      Seed : constant String :=
        (if Chance (30) then "-" & Good_Seed else Bad_Seed_Word);
   begin
      return Composed (Seed, "100", Some_Weights (Harm => 0), "20");
   end Bad_Seed_Line;

   --  Around the limit of 128 bytes: a seed's word that fills the line, or
   --  numbers at their largest.
   function Long_Line return String is
      Rest   : constant String := Composed ("", "10", " 1 1 1 1 1 1 1 1", "5");
      Wanted : constant Natural :=
        (case Below (6) is
            when 0      => 127,
            when 1 | 2  => 128,
            when 3      => 130,
            when others => 129);
      Byte   : constant Character := (if Chance (50) then '7' else '0');
      Seed   : constant String (1 .. Wanted - Rest'Length) :=
        (others => Byte);
      Large  : constant String := " 4294967295 4294967295 4294967295";
      Pad    : constant String (1 .. Between (8, 12)) := (others => '9');
   begin
      case Below (6) is
         when 0 =>
            return Composed (Pad, "429496729",
                             Large & Large & " 429496729 1", Good_Count);
         when 1 =>
            return Composed (Pad, "1", Large & Large & " 1 1", "1");
         when others =>
            return Composed (Seed, "10", " 1 1 1 1 1 1 1 1", "5");
      end case;
   end Long_Line;

   --  Words missing, too many or in another order.
   function Wrong_Words_Line return String is
     (case Below (12) is
         when 0      => "",
         when 1      => "seed",
         when 2      => "seed 1",
         when 3      => "create 1 3",
         when 4      => "seed 1 span 10 weights 1 1 1 1 1 1 1 count 5",
         when 5      => "seed 1 span 10 weights 1 1 1 1 1 1 1 1 1 count 5",
         when 6      => "seed 1 span 10 weights 1 1 1 1 1 1 1 1 count",
         when 7      => "seed 1 span 10 weights 1 1 1 1 1 1 1 1 count 5 5",
         when 8      => "span 10 seed 1 weights 1 1 1 1 1 1 1 1 count 5",
         when 9      => "seed  span 10 weights 1 1 1 1 1 1 1 1 count 5",
         when 10     => "seed 1 span 10 weights 1 1 1 1 1 1 1 1",
         when others => Noise (Below (300)));

   function First_Line_Text return String is
     (case Below (26) is
         when 0 .. 12  => Good_Line,
         when 13 .. 17 => Bad_Parts_Line,
         when 18 .. 20 => Long_Line,
         when 21       => Wrong_Words_Line,
         when 22 .. 23 => Bad_Seed_Line,
         when others   => Spoiled (Good_Line));

   ----------
   -- Make --
   ----------

   --  "then setup lines, through an accepted start": with ops 4..11 before
   --  it (refused with 2), without it, with lines behind it.
   procedure Make_Setup is
      Likes : constant Taste := Some_Taste;
      Harm  : constant Mischief := Some_Mischief;
   begin
      if Chance (3) then
         return;
      end if;
      Emit_Setup (Likes, Harm);
      if Chance (20) then
         Emit (Image (Accepted_Command (Kernel, Likes)));
      end if;
      if Chance (94) then
         Emit_Start (Harm);
      end if;
      if Chance (15) then
         for I in 1 .. Between (1, 50) loop
            Emit_Command (Random_Command (Kernel), Likes, Harm);
         end loop;
      end if;
   end Make_Setup;

   procedure Make is
   begin
      if Chance (1) then
         return;  --  no byte at all
      end if;
      Emit (First_Line_Text);
      Make_Setup;
      Finish;
   end Make;

end Draw_Inputs;
