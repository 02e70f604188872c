package body Decimals is

   subtype Digit is Character range '0' .. '9';

   function Worth (D : Digit) return Ticks is
     (Ticks (Character'Pos (D) - Character'Pos ('0')));

   --  Whether the digits stand for at most Most.  Asked before each step, so
   --  that nothing wraps: 10 * sum + d <= most, as sum <= (most - d) / 10.
   function Is_At_Most (Text : String; Most : Ticks) return Boolean is
      Sum : Ticks := 0;
   begin
      for D of Text loop
         if Sum > (Most - Worth (D)) / 10 then
            return False;
         end if;
         Sum := 10 * Sum + Worth (D);
      end loop;
      return True;
   end Is_At_Most;

   --  "0" is right; "00", "01", "+1" and "" are not (READINGS 18).
   function Is_Decimal (Text : String; Most : Ticks) return Boolean is
     (Text'Length > 0
      and then (for all D of Text => D in Digit)
      and then (Text'Length = 1 or else Text (Text'First) /= '0')
      and then Is_At_Most (Text, Most));

   function Value (Text : String) return Ticks is
      Sum : Ticks := 0;
   begin
      for D of Text loop
         Sum := 10 * Sum + Worth (D);
      end loop;
      return Sum;
   end Value;

   function Image (Number : Ticks) return String is
      Last : constant Character :=
        Character'Val (Character'Pos ('0') + Natural (Number mod 10));
   begin
      if Number < 10 then
         return (1 => Last);
      else
         return Image (Number / 10) & Last;
      end if;
   end Image;

end Decimals;
