--  Single draws of edition 2, and single choices, for cases.  Reads lines from
--  standard input and prints one for each draw and each choice:
--
--     fresh                  the machine is a fresh one from here on
--     a command              is carried out; it must be accepted
--     draw SEED SPAN W .. W  prints: code op a b value seed spent
--     below SEED N           prints: choice seed spent
--
--  The eight weights stand in op order, and the seed that is printed is the
--  one left.  A draw changes nothing of the machine.

with Byte_IO;      use Byte_IO;
with Command_Text; use Command_Text;
with Decimals;     use Decimals;
with Generator;    use Generator;
with Machine;      use Machine;

procedure Even_Cases2 is

   Kernel : State;

   procedure Refuse (Bytes : String; Why : String) is
   begin
      Fail ("even_cases2: '" & Bytes & "': " & Why, Status => 2);
   end Refuse;

   --  The numbers behind the word, with single blanks between them.  A number
   --  of this program has 32 bits.
   type Word_List is array (1 .. 10) of Word_32;

   procedure Read_Numbers
     (Bytes : String; Count : Natural; Numbers : out Word_List)
   is
      First : Positive := Bytes'First;
      Last  : Natural;
   begin
      Numbers := (others => 0);
      while First <= Bytes'Last and then Bytes (First) /= ' ' loop
         First := First + 1;
      end loop;
      for I in 1 .. Count loop
         First := First + 1;
         Last  := First - 1;
         while Last < Bytes'Last and then Bytes (Last + 1) /= ' ' loop
            Last := Last + 1;
         end loop;
         if First > Bytes'Last
           or else not Is_Decimal (Bytes (First .. Last), 2 ** 32 - 1)
         then
            Refuse (Bytes, "there must be" & Count'Image & " numbers");
         end if;
         Numbers (I) := Word_32 (Value (Bytes (First .. Last)));
         First := Last + 1;
      end loop;
      if First <= Bytes'Last then
         Refuse (Bytes, "there must be no more than" & Count'Image
                 & " numbers");
      end if;
   end Read_Numbers;

   procedure Say_Draw (Bytes : String) is
      Numbers : Word_List;
      Menu    : Profile;
      Seed    : Word_32;
      Number  : Code;
      C       : Command;
      Spent   : Natural;
   begin
      Read_Numbers (Bytes, 10, Numbers);
      Seed      := Numbers (1);
      Menu.Span := Numbers (2);
      for Op in Drawn_Op loop
         Menu.Weights (Op) := Numbers (3 + (Op - Drawn_Op'First));
      end loop;
      Draw (2, Kernel, Menu, Seed, Number, C, Spent);
      Put_Numbers ((Ticks (Number),
                    Ticks (C.Op),
                    Ticks (C.A),
                    Ticks (C.B),
                    C.Value,
                    Ticks (Seed),
                    Ticks (Spent)));
   end Say_Draw;

   procedure Say_Choice (Bytes : String) is
      Numbers : Word_List;
      Seed    : Word_32;
      Choice  : Word_32;
      Spent   : Positive;
   begin
      Read_Numbers (Bytes, 2, Numbers);
      Seed := Numbers (1);
      if Seed = 0 or else Numbers (2) = 0 then
         Refuse (Bytes, "neither may be 0");
      end if;
      Choose_Evenly (Numbers (2), Seed, Choice, Spent);
      Put_Numbers ((Ticks (Choice), Ticks (Seed), Ticks (Spent)));
   end Say_Choice;

   procedure Carry_Out (Bytes : String) is
      C      : Command;
      Number : Code;
      Result : Answer;
   begin
      Read_Command (Bytes, Number, C);
      if Number = Accepted then
         Step (Kernel, C, Result);
         Number := Result.Number;
      end if;
      if Number /= Accepted then
         Refuse (Bytes, "refused with" & Number'Image);
      end if;
   end Carry_Out;

   function Begins (Bytes, With_It : String) return Boolean is
     (Bytes'Length >= With_It'Length
      and then Bytes (Bytes'First .. Bytes'First + With_It'Length - 1)
                 = With_It);

   Current : Line;
   Found   : Boolean;

begin
   loop
      Next_Line (Current, Found);
      exit when not Found;
      if Text (Current) = "fresh" then
         Kernel := (others => <>);
      elsif Begins (Text (Current), "draw ") then
         Say_Draw (Text (Current));
      elsif Begins (Text (Current), "below ") then
         Say_Choice (Text (Current));
      else
         Carry_Out (Text (Current));
      end if;
   end loop;
   Flush;
end Even_Cases2;
