--  "unsigned decimals without needless zeros", both ways and exact.

with Machine; use Machine;

package Decimals is

   --  Whether Text is such a decimal of at most Most: digits only, at least
   --  one, and no zero in front of another digit.
   function Is_Decimal (Text : String; Most : Ticks) return Boolean
     with Pre => Most >= 9;

   --  The number that such a text stands for.
   function Value (Text : String) return Ticks
     with Pre => Is_Decimal (Text, Ticks'Last);

   function Image (Number : Ticks) return String;

end Decimals;
