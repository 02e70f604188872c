--  Commands for the maker of test input, chosen with the state in view, so
--  that a script gets far: into preemption inside objects, waiters, long
--  delay lines, ties.  Each function answers some command of its sort where
--  there is one, else another command.
--
--  Closing commands are chosen among closep, closef and done; then a number
--  aside says which of them become one of 12 .. 15, which moves tasks alike.
--  So an input is, but for these, what its number made before there were any.

with Machine; use Machine;

package Steering is

   --  How a script likes to move.
   type Taste is record
      Levels     : Positive := 15;  --  how many priorities are in use
      Lowest     : Positive := 1;   --  the lowest of them
      Far        : Positive := 5;   --  the longest delay
      Sleepy     : Natural  := 30;  --  weights of delay, object, wake,
      Busy       : Natural  := 30;  --  advance among a runner's commands
      Waking     : Natural  := 20;
      Passing    : Natural  := 20;
   end record;

   function Some_Taste return Taste;

   --  Before Start: a create or an object that is accepted, if one is left.
   function New_Task (M : State; Likes : Taste) return Command;
   function New_Object (M : State; Likes : Taste) return Command;

   --  After Start: a command that is accepted.
   function Accepted_Command (M : State; Likes : Taste) return Command;

   --  A command made to be refused, by a number drawn among 2..13.
   function Refused_Command (M : State; Likes : Taste) return Command;

   --  Any op, operands mostly in or near their ranges.
   function Random_Command (M : State) return Command;

   --  A closing command is, in some cases, one that ends in an exception.
   function Or_Failing (C : Command) return Command;

end Steering;
