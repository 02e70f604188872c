--  Test input for walk, on standard output.

package Walk_Inputs is

   --  From the numbers that Fresh_Numbers was started with.
   procedure Make;

end Walk_Inputs;
