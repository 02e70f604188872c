package body Machine is

   ---------------
   -- Searching --
   ---------------

   function Object_Held (M : State; T : Task_Id) return Object_Id is
     (if M.Tasks (T).Stands = Ready then M.Tasks (T).Holds else Null_Object);

   function Active (M : State; T : Task_Id) return Priority is
     (if M.Tasks (T).Holds = Null_Object
      then M.Tasks (T).Base
      else M.Objects (M.Tasks (T).Holds).Ceiling);

   --  Whether ready task L stands before ready task R in the ready line.
   --
   --  "The ready line holds the ready tasks, highest active priority first."
   --  Why the turn decides between equals: a placing at the tail of p takes
   --  a turn above all others, so it is behind each task of active p; one at
   --  the head takes a turn below all others.  Taking an object raises the
   --  active of the front only, which stays the front; no other task changes
   --  its active or turn without being placed.
   function Before (M : State; L, R : Task_Id) return Boolean is
     (Active (M, L) > Active (M, R)
      or else (Active (M, L) = Active (M, R)
               and then M.Tasks (L).Turn < M.Tasks (R).Turn));

   function Front (M : State) return Task_Id is
      Best : Task_Id := Idle;  --  always there, and always ready
   begin
      for T in Task_Id loop
         if M.Tasks (T).Stands = Ready and then Before (M, T, Best) then
            Best := T;
         end if;
      end loop;
      return Best;
   end Front;

   function Running (M : State) return Task_Id is
     (if M.Started then Front (M) else Idle);

   function Holder (M : State; Object : Real_Object) return Task_Id is
   begin
      for T in Task_Id loop
         if Object_Held (M, T) = Object then
            return T;
         end if;
      end loop;
      return Idle;
   end Holder;

   function Waiter (M : State; Object : Real_Object) return Task_Id is
   begin
      for T in Task_Id loop
         if M.Tasks (T).Stands = Waiting and then M.Tasks (T).On = Object then
            return T;
         end if;
      end loop;
      return Idle;
   end Waiter;

   --  Whether delayed task L is ahead of delayed task R: "The delay line is
   --  ordered by time, equal times by order of entry."
   function Ahead (L, R : Task_State) return Boolean is
     (L.Time < R.Time
      or else (L.Time = R.Time and then L.Arrival < R.Arrival));

   function First_Delayed (M : State) return Task_Id is
      Best : Task_Id := Idle;
   begin
      for T in Task_Id loop
         if M.Tasks (T).Stands = Delayed
           and then (Best = Idle or else Ahead (M.Tasks (T), M.Tasks (Best)))
         then
            Best := T;
         end if;
      end loop;
      return Best;
   end First_Delayed;

   --------------
   -- Refusals --
   --------------

   --  Each condition below is one row of the table of refusals.  Those that
   --  read an operand as a number of a task or an object are asked only
   --  after Range has let it pass.

   function Is_Task (N : Natural) return Boolean is (N in 1 .. 31);
   function Is_Object (N : Natural) return Boolean is (N in 1 .. 7);
   function Is_Level (N : Natural) return Boolean is (N in 1 .. 15);
   function Is_Barrier (N : Natural) return Boolean is (N <= 1);

   --  4: "unknown op; a task not 1..31, an object not 1..7, a priority or
   --  ceiling not 1..15; barrier above 1; an unused operand not 0"
   function Is_Range (C : Command) return Boolean is
     (not (case C.Op is
             when Op_Create            =>
               Is_Task (C.A) and Is_Level (C.B) and C.Value = 0,
             when Op_Object            =>
               Is_Object (C.A) and Is_Level (C.B) and C.Value = 0,
             when Op_Start | Op_Wake   =>
               C.A = 0 and C.B = 0 and C.Value = 0,
             when Op_Delay | Op_Advance =>
               C.A = 0 and C.B = 0,
             when Op_Open | Op_Closef  =>
               Is_Object (C.A) and C.B = 0 and C.Value = 0,
             when Op_Closep | Op_Entry | Op_Done =>
               Is_Object (C.A) and Is_Barrier (C.B) and C.Value = 0,
             when others               => False));

   --  2: "ops 4..11 or a draw before Start"
   function Is_Early (M : State; C : Command) return Boolean is
     (not M.Started and then C.Op in Op_Delay .. Op_Done);

   --  3: "ops 1..3 after Start"
   function Is_Late (M : State; C : Command) return Boolean is
     (M.Started and then C.Op in Op_Create .. Op_Start);

   --  5: "task or object set up before"
   function Is_Taken (M : State; C : Command) return Boolean is
     ((C.Op = Op_Create and then M.Tasks (Task_Id (C.A)).Stands /= Absent)
      or else
      (C.Op = Op_Object and then M.Objects (Object_Id (C.A)).Declared));

   --  6: "object, or task asked about, not set up"
   function Is_Missing (M : State; C : Command) return Boolean is
     (C.Op in Op_Open .. Op_Done
      and then not M.Objects (Object_Id (C.A)).Declared);

   --  7: "ops 4 and 7..11 while task 0 runs"
   function Is_Idle (M : State; C : Command) return Boolean is
     (C.Op in Op_Delay | Op_Open .. Op_Done and then Running (M) = Idle);

   --  8: "ops 4, 7, 10 while the runner holds an object"
   function Is_Inside (M : State; C : Command) return Boolean is
     (C.Op in Op_Delay | Op_Open | Op_Entry
      and then Object_Held (M, Running (M)) /= Null_Object);

   --  9: "closing an object the runner does not hold, or holds in the other
   --  way (8, 9 end an open; 11 ends an entry)"
   function Is_Outside (M : State; C : Command) return Boolean is
      Runner : constant Task_Id := Running (M);
   begin
      if C.Op not in Op_Closep | Op_Closef | Op_Done then
         return False;
      elsif Object_Held (M, Runner) /= Object_Id (C.A) then
         return True;
      else
         return M.Tasks (Runner).Way
                  /= (if C.Op = Op_Done then By_Entry else By_Open);
      end if;
   end Is_Outside;

   --  10: "the runner's base is above the ceiling"; for entry with barrier 0
   --  too (READINGS 3)
   function Is_Ceiling (M : State; C : Command) return Boolean is
     (C.Op in Op_Open | Op_Entry
      and then M.Tasks (Running (M)).Base
                 > M.Objects (Object_Id (C.A)).Ceiling);

   --  11: "another task holds the object".  Asked after Inside: the runner
   --  itself holds nothing by then.
   function Is_Held (M : State; C : Command) return Boolean is
     (C.Op in Op_Open | Op_Entry
      and then Holder (M, Object_Id (C.A)) /= Idle);

   --  12: "entry with barrier 0 while a task waits there"
   function Is_Queue (M : State; C : Command) return Boolean is
     (C.Op = Op_Entry and then C.B = 0
      and then Waiter (M, Object_Id (C.A)) /= Idle);

   --  13: "advance past 2^64-1"
   function Is_Clock (M : State; C : Command) return Boolean is
     (C.Op = Op_Advance and then C.Value > Ticks'Last - M.Clock);

   --  "Order of a step's checks: 1, 4, then 2 or 3, then 5 to 13."  Shape
   --  (1) cannot be: no state of these programs comes from elsewhere.
   function Refusal (M : State; C : Command) return Code is
   begin
      if Is_Range (C) then return Out_Of_Range;
      elsif Is_Early (M, C) then return Early;
      elsif Is_Late (M, C) then return Late;
      elsif Is_Taken (M, C) then return Taken;
      elsif Is_Missing (M, C) then return Missing;
      elsif Is_Idle (M, C) then return Idle_Runs;
      elsif Is_Inside (M, C) then return Inside;
      elsif Is_Outside (M, C) then return Outside;
      elsif Is_Ceiling (M, C) then return Ceiling;
      elsif Is_Held (M, C) then return Held;
      elsif Is_Queue (M, C) then return Queue;
      elsif Is_Clock (M, C) then return Clock_Full;
      else return Accepted;
      end if;
   end Refusal;

   -------------
   -- Effects --
   -------------

   --  "Placed at the tail of p means after every task with active at least
   --  p", p being the base: from here on the task holds nothing.
   procedure To_Tail (M : in out State; T : Task_Id) is
   begin
      M.Last_Turn := M.Last_Turn + 1;
      M.Tasks (T) := (Stands => Ready,
                      Base   => M.Tasks (T).Base,
                      Turn   => M.Last_Turn,
                      Holds  => Null_Object,
                      Way    => By_Open);
   end To_Tail;

   --  "at the head of p means after every task with active above p"
   procedure To_Head (M : in out State; T : Task_Id) is
   begin
      M.Head_Turn := M.Head_Turn - 1;
      M.Tasks (T) := (Stands => Ready,
                      Base   => M.Tasks (T).Base,
                      Turn   => M.Head_Turn,
                      Holds  => Null_Object,
                      Way    => By_Open);
   end To_Head;

   procedure Into_Delay_Line (M : in out State; T : Task_Id; Time : Ticks) is
   begin
      M.Arrivals := M.Arrivals + 1;
      M.Tasks (T) := (Stands  => Delayed,
                      Base    => M.Tasks (T).Base,
                      Time    => Time,
                      Arrival => M.Arrivals);
   end Into_Delay_Line;

   --  Op 1: "created, placed at the tail of its base"
   procedure Create (M : in out State; T : Task_Id; Base : Priority) is
   begin
      M.Tasks (T).Base := Base;
      To_Tail (M, T);
   end Create;

   --  Op 4: "time above the clock: into the delay line.  Otherwise: the
   --  runner goes to the tail of its base and stays ready"
   procedure Delay_Until (M : in out State; Runner : Task_Id; Time : Ticks) is
   begin
      if Time > M.Clock then
         Into_Delay_Line (M, Runner, Time);
      else
         To_Tail (M, Runner);
      end if;
   end Delay_Until;

   --  Op 5: "the first delay entry, if its time is at most the clock, goes
   --  to the tail of its base and is the released task; otherwise nothing
   --  changes"
   procedure Wake (M : in out State; Released : out Task_Id) is
      First : constant Task_Id := First_Delayed (M);
   begin
      Released := Idle;
      if First /= Idle and then M.Tasks (First).Time <= M.Clock then
         To_Tail (M, First);
         Released := First;
      end if;
   end Wake;

   --  Ops 7 and 10: the runner holds the object, and does not move in the
   --  line (READINGS 8), so it keeps its turn.
   procedure Take
     (M : in out State; Runner : Task_Id; Object : Real_Object; Way : Way_In)
   is
   begin
      M.Tasks (Runner).Holds := Object;
      M.Tasks (Runner).Way   := Way;
   end Take;

   --  Op 8: "if b is 1 and a task waits on the object, it goes to the tail
   --  of its base and is released; then the runner holds nothing and goes to
   --  the head of its base".  Op 11 "treats a waiter as closep does" (change
   --  request 2).
   procedure Close_And_Serve
     (M        : in out State;
      Runner   : Task_Id;
      C        : Command;
      Released : out Task_Id)
   is
      Candidate : constant Task_Id := Waiter (M, Object_Id (C.A));
   begin
      Released := Idle;
      if C.B = 1 and then Candidate /= Idle then
         To_Tail (M, Candidate);
         Released := Candidate;
      end if;
      To_Head (M, Runner);
   end Close_And_Serve;

   --  Op 10: "b 1: the runner holds it, for an entry, whoever waits.  b 0:
   --  the runner leaves the line and waits on the object"
   procedure Enter (M : in out State; Runner : Task_Id; C : Command) is
   begin
      if C.B = 1 then
         Take (M, Runner, Object_Id (C.A), By_Entry);
      else
         M.Tasks (Runner) := (Stands => Waiting,
                              Base   => M.Tasks (Runner).Base,
                              On     => Object_Id (C.A));
      end if;
   end Enter;

   --  The column "Effect when accepted" of the table of commands.
   procedure Perform (M : in out State; C : Command; Released : out Task_Id) is
      Runner : constant Task_Id := Running (M);
   begin
      Released := Idle;
      case C.Op is
         when Op_Create =>
            Create (M, Task_Id (C.A), Priority (C.B));
         when Op_Object =>
            M.Objects (Object_Id (C.A)) := (True, Priority (C.B));
         when Op_Start =>
            M.Started := True;
         when Op_Delay =>
            Delay_Until (M, Runner, C.Value);
         when Op_Wake =>
            Wake (M, Released);
         when Op_Advance =>
            M.Clock := M.Clock + C.Value;
         when Op_Open =>
            Take (M, Runner, Object_Id (C.A), By_Open);
         when Op_Closep | Op_Done =>
            Close_And_Serve (M, Runner, C, Released);
         when Op_Closef =>
            To_Head (M, Runner);
         when Op_Entry =>
            Enter (M, Runner, C);
         when others =>
            raise Program_Error;  --  Range has refused it
      end case;
   end Perform;

   ----------------
   -- Exceptions --
   ----------------

   --  "The exception belongs to the runner", of ops 12 .. 14; of op 15 "it is
   --  the released task's, nobody's if none was".  Nobody is Idle, who never
   --  closes and is never released.
   function Whose (Op : Natural; Closer, Released : Task_Id) return Task_Id is
     (case Op is
         when Op_Failp | Op_Failf | Op_Faile => Closer,
         when Op_Failw                       => Released,
         when others                         => Idle);

   --  "An exception for a task with one pending keeps the older."
   procedure Owe (M : in out State; T : Task_Id) is
   begin
      if T /= Idle then
         M.Owed (T) := True;
      end if;
   end Owe;

   --  "The first accepted answer that names that task as running shows it,
   --  the closing command's own answer included, and clears it."
   procedure Show (M : in out State; Runner : Task_Id; Failed : out Boolean) is
   begin
      Failed          := M.Owed (Runner);
      M.Owed (Runner) := False;
   end Show;

   ----------
   -- Step --
   ----------

   --  "A refused step answers its number, the running task, released 0 and
   --  the same state".
   --
   --  Ops 12 .. 15 (change request 6): "They move tasks as closep, closef and
   --  done do"; "Refusals: those of the matching closing command, in the same
   --  order."
   procedure Step (M : in out State; C : Command; Result : out Answer) is
      Closer  : constant Task_Id := Running (M);
      Matched : constant Command := (Matching (C.Op), C.A, C.B, C.Value);
   begin
      Result         := (Number => Refusal (M, Matched), others => <>);
      Result.Running := Closer;
      if Result.Number = Accepted then
         Perform (M, Matched, Result.Released);
         Owe (M, Whose (C.Op, Closer, Result.Released));
         Result.Running := Running (M);
         Show (M, Result.Running, Result.Failed);
      end if;
   end Step;

   --  "(checks 1, 4, 6): if the task is delayed and due, one more than the
   --  count of entries ahead of it in the delay line; otherwise 0.  A refusal
   --  answers its number and 0."  No check for Early (READINGS 14).
   procedure Wakes_Left
     (M      : State;
      T      : Natural;
      Number : out Code;
      Wakes  : out Natural) is
   begin
      Wakes := 0;
      if not Is_Task (T) then
         Number := Out_Of_Range;
         return;
      end if;
      declare
         Asked : Task_State renames M.Tasks (Task_Id (T));
      begin
         Number := (if Asked.Stands = Absent then Missing else Accepted);
         if Asked.Stands = Delayed and then Asked.Time <= M.Clock then
            Wakes := 1;
            for Other of M.Tasks loop
               if Other.Stands = Delayed and then Ahead (Other, Asked) then
                  Wakes := Wakes + 1;
               end if;
            end loop;
         end if;
      end;
   end Wakes_Left;

end Machine;
