--  Test input for even_cases2, on standard output: draws and choices of
--  edition 2, in states that accepted commands have reached.

package Even_Inputs is

   --  From the numbers that Fresh_Numbers was started with.
   procedure Make;

end Even_Inputs;
