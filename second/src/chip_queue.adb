package body Chip_Queue is

   Free : constant Entered := (0, 0);

   --  The three cases of 6.4.  "1. No tasks currently delayed ... saves task's
   --  ID in the variable PidDQ, its delay time in the variable t.  2. ... new
   --  task being delayed has a delay time greater than (or equal to) t: new
   --  task being delayed and its time are entered into the DQ_RAM.  3. ... less
   --  than t: the data held in PidDQ and t is put into the DQ_RAM, the new
   --  task's ID is put into PidDQ, and the new task's delay time is put into
   --  t."
   procedure Delay_Until (Q : in out Queue; Pid : Task_Id; Time : Ticks) is
      New_One : constant Entered := (Time, Q.Last + 1);
   begin
      pragma Assert (Pid /= Q.PidDQ and then Q.DQ_RAM (Pid) = Free);
      if Q.Len > 0 and then Time >= Q.T.Time then
         Q.DQ_RAM (Pid) := New_One;
      else
         if Q.Len > 0 then
            Q.DQ_RAM (Q.PidDQ) := Q.T;
         end if;
         Q.PidDQ := Pid;
         Q.T     := New_One;
      end if;
      Q.Last := New_One.Came;
      Q.Len  := Q.Len + 1;
   end Delay_Until;

   function Has_Time (Q : Queue; Time : Ticks) return Boolean is
     (Q.Len > 0
      and then (Q.T.Time = Time
                or else (for some E of Q.DQ_RAM => E.Time = Time)));

   --  Whether L wakes before R: "ordered by time, equal times by order of
   --  entry" (document 01).  (The chip itself looks at times alone.)
   function Sooner (L, R : Entered) return Boolean is
     (L.Time < R.Time or else (L.Time = R.Time and then L.Came < R.Came));

   --  "the DQ_RAM needs to be searched for the task with the next smallest
   --  delay time"; Idle, whose entry holds zeros for ever, where it has none.
   function Next_Smallest (Q : Queue) return Task_Id is
      Found : Task_Id := Idle;
   begin
      for Pid in Task_Id loop
         if Q.DQ_RAM (Pid).Time > 0
           and then (Found = Idle
                     or else Sooner (Q.DQ_RAM (Pid), Q.DQ_RAM (Found)))
         then
            Found := Pid;
         end if;
      end loop;
      return Found;
   end Next_Smallest;

   --  "When the next task is found, it is removed from the DQ_RAM and put in
   --  the variables PidDQ and t."  "If no other tasks are delayed ... sets
   --  PidDQ and t equal to zero" (5.2.2).
   procedure Wake (Q : in out Queue; Clock : Ticks; Released : out Task_Id) is
   begin
      Released := To_Wake (Q, Clock);
      if Released /= Idle then
         Q.PidDQ            := Next_Smallest (Q);
         Q.T                := Q.DQ_RAM (Q.PidDQ);
         Q.DQ_RAM (Q.PidDQ) := Free;
         Q.Len              := Q.Len - 1;
         pragma Assert ((Q.PidDQ = Idle) = (Q.Len = 0));
      end if;
   end Wake;

   function Wakes_Left (Q : Queue; Clock : Ticks; Pid : Task_Id)
     return Natural
   is
      Copy     : Queue   := Q;
      Count    : Natural := 0;
      Released : Task_Id;
   begin
      loop
         Wake (Copy, Clock, Released);
         Count := Count + 1;
         exit when Released in Idle | Pid;
      end loop;
      return (if Released = Idle then 0 else Count);
   end Wakes_Left;

   --  Whether E came in later than Own, for the same time.  A free entry has
   --  the stamp 0, and is later than none.
   function Is_Younger (E, Own : Entered) return Boolean is
     (E.Time = Own.Time and then E.Came > Own.Came);

   function Age (Q : Queue; Own : Entered) return Natural is
      Years : Natural := 0;
   begin
      if Own /= Free then
         Years := (if Is_Younger (Q.T, Own) then 2 else 1);
         for E of Q.DQ_RAM loop
            if Is_Younger (E, Own) then
               Years := Years + 1;
            end if;
         end loop;
      end if;
      return Years;
   end Age;

end Chip_Queue;
