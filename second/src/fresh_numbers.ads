--  Numbers for the maker of test input: the same on every machine from the
--  same start, by modular arithmetic alone.  It is another generator than
--  document 01's on purpose (SplitMix64: Steele, Lea, Flood, 2014).

with Machine; use Machine;

package Fresh_Numbers is

   --  Starts the sequence that belongs to this kind and number of input.
   procedure Start (Kind : Character; Number : Ticks);

   function Any return Ticks;

   --  0 .. Limit - 1
   function Below (Limit : Positive) return Natural;

   --  Low .. High
   function Between (Low, High : Natural) return Natural
     with Pre => Low <= High;

   --  True in that many of 100 cases.
   function Chance (Percent : Natural) return Boolean;

   --  As Below, from a sequence of its own: what it is asked for leaves the
   --  other numbers, and so all the rest of an input, as they are.
   function Below_Aside (Limit : Positive) return Natural;

end Fresh_Numbers;
