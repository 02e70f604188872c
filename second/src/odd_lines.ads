--  Lines that are not of document 01's form, and some that nearly are not.

package Odd_Lines is

   --  A line made from a good one by a slip of one of many shapes: zeros,
   --  signs, blanks, odd bytes, upper case, operands too many, too few or
   --  too large, lengths around the limits.  It has no byte 10.
   function Spoiled (Good : String) return String;

   --  Any bytes but byte 10.
   function Noise (Length : Natural) return String;

end Odd_Lines;
