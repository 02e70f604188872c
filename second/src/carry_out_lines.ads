--  What walk, draw and show do alike: command lines are read, counted, carried
--  out and reported, one after another, to the end of the input, until the
--  machine is started, or up to the line of a number.

with Machine; use Machine;

generic
   --  Behind is the state behind the line.
   with procedure Report
     (Number : Ticks; C : Command; Result : Answer; Behind : State);
procedure Carry_Out_Lines
  (Kernel      : in out State;
   Number      : in out Ticks;
   Until_Start : Boolean := False;
   Last        : Ticks   := Ticks'Last);
