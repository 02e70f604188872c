with Fresh_Numbers; use Fresh_Numbers;

package body Odd_Lines is

   Tab      : constant Character := Character'Val (9);
   Carriage : constant Character := Character'Val (13);
   Line_End : constant Character := Character'Val (10);

   function Noise (Length : Natural) return String is
      Text : String (1 .. Length);
   begin
      for Byte of Text loop
         Byte := Character'Val (Below (256));
         if Byte = Line_End then
            Byte := Character'Val (0);
         end if;
      end loop;
      return Text;
   end Noise;

   --  Where the last word of the line begins.
   function Last_Word (Line : String) return Positive is
   begin
      for I in reverse Line'Range loop
         if Line (I) = ' ' then
            return I + 1;
         end if;
      end loop;
      return Line'First;
   end Last_Word;

   --  Where some word of the line begins.
   function Some_Word (Line : String) return Positive is
      Start : constant Natural := Between (Line'First, Line'Last);
   begin
      return Last_Word (Line (Line'First .. Start));
   end Some_Word;

   function Insert (Line : String; At_Place : Positive; Text : String)
                    return String is
     (Line (Line'First .. At_Place - 1) & Text
      & Line (At_Place .. Line'Last));

   function With_Byte (Line : String; Byte : Character) return String is
     (Insert (Line, Between (Line'First, Line'Last + 1), (1 => Byte)));

   function Without_Byte (Line : String) return String is
      Gone : constant Positive := Between (Line'First, Line'Last);
   begin
      return Line (Line'First .. Gone - 1) & Line (Gone + 1 .. Line'Last);
   end Without_Byte;

   function Upper (Byte : Character) return Character is
     (if Byte in 'a' .. 'z'
      then Character'Val (Character'Pos (Byte) - 32) else Byte);

   function All_Upper (Line : String) return String is
      Text : String := Line;
   begin
      for Byte of Text loop
         Byte := Upper (Byte);
      end loop;
      return Text;
   end All_Upper;

   function First_Upper (Line : String) return String is
     (Upper (Line (Line'First)) & Line (Line'First + 1 .. Line'Last));

   --  The blank before the last word becomes another byte.
   function Blank_Replaced (Line : String; Byte : Character) return String is
      Place : constant Positive := Last_Word (Line);
   begin
      if Place = Line'First then
         return Line & Byte;
      end if;
      return Line (Line'First .. Place - 2) & Byte
        & Line (Place .. Line'Last);
   end Blank_Replaced;

   function Last_Word_Replaced (Line : String; By : String) return String is
     (Line (Line'First .. Last_Word (Line) - 1) & By);

   --  The first operand becomes another; a line without one gets it.
   function First_Operand_Replaced (Line : String; By : String) return String
   is
      Blanks : Natural := 0;
      Text   : constant String (1 .. Line'Length) := Line;
      First  : Natural := Line'Length + 1;  --  where the operand begins
      Behind : Natural := Line'Length + 1;  --  where the rest begins
   begin
      for I in Text'Range loop
         if Text (I) = ' ' then
            Blanks := Blanks + 1;
            if Blanks = 1 then
               First := I + 1;
            elsif Blanks = 2 then
               Behind := I;
            end if;
         end if;
      end loop;
      return Text (1 .. First - 1) & By & Text (Behind .. Text'Last);
   end First_Operand_Replaced;

   --  Numbers at and past the limits of a and b, of 32 bits and of value.
   function Large_Number return String is
     (case Below (12) is
         when 0      => "256",
         when 1      => "255",
         when 2      => "257",
         when 3      => "260",
         when 4      => "65537",
         when 5      => "4294967297",
         when 6      => "18446744073709551615",
         when 7      => "18446744073709551616",
         when 8      => "18446744073709551617",
         when 9      => "18446744073709551620",
         when 10     => "28446744073709551615",
         when others => "184467440737095516160");

   --  Made longer with one byte, up to a length at or past the limit.
   function Padded (Line : String; Front : Boolean) return String is
      Wanted : constant Natural :=
        (case Below (40) is
            when 0 .. 4   => 63,
            when 5 .. 9   => 64,
            when 10 .. 19 => 65,
            when 20 .. 24 => 66,
            when 25 .. 29 => 128,
            when 30 .. 34 => 200,
            when 35 .. 38 => 5000,
            when others   => 70_000);
      Byte : constant Character :=
        (case Below (4) is
            when 0      => ' ',
            when 1      => '0',
            when 2      => '9',
            when others => 'x');
      Rest : constant String (1 .. Integer'Max (0, Wanted - Line'Length)) :=
        (others => Byte);
   begin
      return (if Front then Insert (Line, Last_Word (Line), Rest)
              else Line & Rest);
   end Padded;

   --  Words that are nearly a command's.
   function Near_Word return String is
     (case Below (11) is
         when 0      => "stop",
         when 1      => (if Below_Aside (2) = 0 then "wak" else "fail 1 1"),
         when 2      => (if Below_Aside (2) = 0 then "wakes" else "failed 1"),
         when 3      => "wake 0",
         when 4      => "start 0",
         when 5      => (if Below_Aside (2) = 0 then "close 1" else "failp 1"),
         when 6      => (if Below_Aside (2) = 0 then "closep1 1"
                         else "failf 1 0"),
         when 7      => "5",
         when 8      => (if Below_Aside (2) = 0 then "create" else "faile 1"),
         when 9      => (if Below_Aside (2) = 0 then "done 1" else "failw 1"),
         when others => "n op code run rel clock");

   function Slip_Of_Blank (Good : String) return String is
     (case Below (7) is
         when 0      => " " & Good,
         when 1      => Good & " ",
         when 2      => Insert (Good, Last_Word (Good), " "),
         when 3      => Blank_Replaced (Good, Tab),
         when 4      => Good & Carriage,
         when 5      => Blank_Replaced (Good, '_'),
         when others => Good & Tab);

   function Slip_Of_Number (Good : String) return String is
     (case Below (10) is
         when 0      => Insert (Good, Last_Word (Good), "0"),
         when 1      => Insert (Good, Last_Word (Good), "+"),
         when 2      => Insert (Good, Last_Word (Good), "-"),
         when 3      => Insert (Good, Some_Word (Good), "0"),
         when 4 | 5  => Last_Word_Replaced (Good, Large_Number),
         when 6      => Last_Word_Replaced (Good, "00"),
         when 7      => First_Operand_Replaced (Good, "256"),
         when 8      => Last_Word_Replaced (Good, "256"),
         when others => Good & ".0");

   function Slip_Of_Count (Good : String) return String is
     (case Below (5) is
         when 0      => Good & " 0",
         when 1      => Good & " " & Large_Number,
         when 2      => Good (Good'First .. Last_Word (Good) - 1),
         when 3      => Good
                          (Good'First
                           .. Integer'Max (Good'First - 1,
                                           Last_Word (Good) - 2)),
         when others => Good & " 1 1");

   function Slip_Of_Byte (Good : String) return String is
     (case Below (7) is
         when 0      => With_Byte (Good, Character'Val (0)),
         when 1      => With_Byte (Good, Character'Val (255)),
         when 2      => With_Byte (Good, Carriage),
         when 3      => With_Byte (Good, Character'Val (Between (11, 255))),
         when 4      => First_Upper (Good),
         when 5      => All_Upper (Good),
         when others => Without_Byte (Good));

   function Spoiled (Good : String) return String is
     (case Below (10) is
         when 0 | 1  => Slip_Of_Blank (Good),
         when 2 | 3  => Slip_Of_Number (Good),
         when 4      => Slip_Of_Count (Good),
         when 5 | 6  => Slip_Of_Byte (Good),
         when 7      => Padded (Good, Front => Chance (50)),
         when 8      => (if Chance (60) then "" else Near_Word),
         when others => Noise (Below (70)));

end Odd_Lines;
