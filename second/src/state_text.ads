--  What show prints of a state, by docs/SHOW.md, whose words stand in quotes
--  here.  The machine keeps no lines, so that a line is read off it: its first
--  is told and taken out of a copy, until nobody is left.

with Chip_Queue;
with Machine; use Machine;

package State_Text is

   --  The block under a row: the machine, whether the row's answer shows an
   --  exception, and the chip's queue.
   procedure Put_State (M : State; Failed : Boolean; Q : Chip_Queue.Queue);

end State_Text;
