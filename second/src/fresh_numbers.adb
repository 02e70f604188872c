package body Fresh_Numbers is

   Current : Ticks := 0;
   Aside   : Ticks := 0;

   procedure Start (Kind : Character; Number : Ticks) is
   begin
      Current := Number * 256 + Character'Pos (Kind);
      --  Neighbours must not begin alike.
      for I in 1 .. 3 loop
         Current := Any;
      end loop;
      Aside := not Current;
   end Start;

   procedure Draw (From : in out Ticks; Drawn : out Ticks) is
      Mixed : Ticks;
   begin
      From  := From + 16#9E37_79B9_7F4A_7C15#;
      Mixed := From;
      Mixed := (Mixed xor (Mixed / 2 ** 30)) * 16#BF58_476D_1CE4_E5B9#;
      Mixed := (Mixed xor (Mixed / 2 ** 27)) * 16#94D0_49BB_1331_11EB#;
      Drawn := Mixed xor (Mixed / 2 ** 31);
   end Draw;

   function Any return Ticks is
      Drawn : Ticks;
   begin
      Draw (Current, Drawn);
      return Drawn;
   end Any;

   function Below_Aside (Limit : Positive) return Natural is
      Drawn : Ticks;
   begin
      Draw (Aside, Drawn);
      return Natural (Drawn mod Ticks (Limit));
   end Below_Aside;

   --  The remainder is a little uneven; for test input that does not matter.
   function Below (Limit : Positive) return Natural is
     (Natural (Any mod Ticks (Limit)));

   function Between (Low, High : Natural) return Natural is
     (Low + Below (High - Low + 1));

   function Chance (Percent : Natural) return Boolean is
     (Below (100) < Percent);

end Fresh_Numbers;
