--  Test input for draw, on standard output.

package Draw_Inputs is

   --  From the numbers that Fresh_Numbers was started with.
   procedure Make;

end Draw_Inputs;
