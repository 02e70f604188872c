--  The chip's own delay queue: that of document 000, the paper on the chip
--  (5.2.2, 6.4 and the code in A.4), with the order of entry that change
--  request 7 puts beside each time.  It stands beside the machine, and never
--  looks into it.  Names are document 000's where it has one; words in quotes
--  are its own, or those of change request 7.

with Machine; use Machine;

package Chip_Queue is

   --  When a task came in, against the others: a stamp that grows.
   type Stamp is range 0 .. 2 ** 62;

   --  "The DQ_RAM has an entry for each task ... holds zeros for each task
   --  unless that task has made a delay until call, in which case it holds
   --  the time".  A time of 0 is never above the clock, so it is never queued.
   type Entered is record
      Time : Ticks := 0;
      Came : Stamp := 0;
   end record;
   type Ram is array (Task_Id) of Entered;

   --  "the soonest task and its time in registers, the others in a table by
   --  task number"
   type Queue is record
      Len    : Natural range 0 .. 31 := 0;
      --  "keeps track of how many tasks are currently delayed"
      PidDQ  : Task_Id := Idle;
      T      : Entered;
      DQ_RAM : Ram;
      Last   : Stamp := 0;  --  the last stamp that was given
   end record;

   --  A delay until a time above the clock.  (Any other reaches no queue:
   --  document 01, "the runner goes to the tail of its base and stays ready".)
   procedure Delay_Until (Q : in out Queue; Pid : Task_Id; Time : Ticks)
     with Pre => Pid /= Idle and then Time > 0;

   --  Whether a task is delayed until that very time.
   function Has_Time (Q : Queue; Time : Ticks) return Boolean;

   --  Whom a Wake at that clock releases; Idle for nobody.
   function To_Wake (Q : Queue; Clock : Ticks) return Task_Id is
     (if Q.Len > 0 and then Q.T.Time <= Clock then Q.PidDQ else Idle);

   --  The Wake itself: "the others in a table ... searched when the registers
   --  are emptied".
   procedure Wake (Q : in out Queue; Clock : Ticks; Released : out Task_Id);

   --  "Wakes left", as it is meant: the Wakes at that clock are made, on a
   --  copy, until one releases the task; 0 where none does.
   function Wakes_Left (Q : Queue; Clock : Ticks; Pid : Task_Id)
     return Natural;

   --  "An age among equal times: 1, and one more for each task that came later
   --  for the same time; 0 for none" (READINGS-02, 7): that of one of the
   --  queue's own entries, of the registers or of the table.
   function Age (Q : Queue; Own : Entered) return Natural;

end Chip_Queue;
