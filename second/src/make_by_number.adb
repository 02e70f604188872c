with Ada.Command_Line; use Ada.Command_Line;
with Byte_IO;
with Decimals;         use Decimals;
with Fresh_Numbers;

procedure Make_By_Number is

   Most_Number : constant := 1_000_000_000;
   Most_Length : constant := 10_000_000;

   function Is_Kind (Text : String) return Boolean is
     (for some K in Kind => Kind'Image (K) = Text);

   --  The kinds are written in small letters.
   function In_Capitals (Text : String) return String is
      Result : String := Text;
   begin
      for C of Result loop
         C := (case C is
                  when 'a' .. 'z' => Character'Val (Character'Pos (C) - 32),
                  when '_'        => '_',
                  when others     => '?');
      end loop;
      return Result;
   end In_Capitals;

   function Are_Right return Boolean is
     (Argument_Count in 1 .. 3
      and then Is_Decimal (Argument (1), Most_Number)
      and then (Argument_Count < 2
                or else Is_Kind (In_Capitals (Argument (2))))
      and then (Argument_Count < 3
                or else Is_Decimal (Argument (3), Most_Length)));

   What   : Kind;
   Length : Natural;

begin
   if not Are_Right then
      Byte_IO.Fail
        ("usage: " & Program & " NUMBER [KIND [LENGTH]], the number 0 to"
         & " 1000000000, the length 0 to 10000000, without leading zeros; the"
         & " kinds stand in second/README.md",
         Status => 2);
   end if;
   Fresh_Numbers.Start (Letter, Value (Argument (1)));
   What   := (if Argument_Count < 2 then Some_Kind
              else Kind'Value (Argument (2)));
   Length := (if Argument_Count < 3 then Some_Length
              else Natural (Value (Argument (3))));
   Make (What, Length);
   Byte_IO.Flush;
end Make_By_Number;
