--  The machine keeps no line; this test does, by the letter of document 01,
--  and compares the two orders after each of many steered commands.  It also
--  watches what must hold on the way: Wakes left counts down with each Wake
--  and with nothing else; no task ahead of a holder could take what it holds
--  (so that Held, 11, does not occur from the fresh machine); between a
--  task's release and its next run one lower task runs at most, inside an
--  object; and an exception is shown once, by the first accepted answer that
--  names its task as running.

with Ada.Command_Line;
with Ada.Containers.Doubly_Linked_Lists;
with Byte_IO;       use Byte_IO;
with Decimals;      use Decimals;
with Fresh_Numbers; use Fresh_Numbers;
with Machine;       use Machine;
with Steering;      use Steering;

procedure Line_Test is

   package Task_Lists is new Ada.Containers.Doubly_Linked_Lists (Task_Id);
   use Task_Lists;

   Line     : List;   --  the ready line, front first
   Compared : Ticks := 0;
   Failures : Ticks := 0;

   procedure Complain (What : String) is
   begin
      Failures := Failures + 1;
      if Failures <= 10 then
         Put_Line ("line_test: " & What);
      end if;
   end Complain;

   procedure Remove (T : Task_Id) is
      Place : Cursor := Line.Find (T);
   begin
      if Has_Element (Place) then
         Line.Delete (Place);
      end if;
   end Remove;

   --  "Placed at the tail of p means after every task with active at least
   --  p; at the head of p means after every task with active above p."  The
   --  task itself is out of the line while it is placed.
   procedure Place (M : State; T : Task_Id; Above : Priority'Base) is
      Spot : Cursor := Line.First;
   begin
      while Has_Element (Spot)
        and then Active (M, Element (Spot)) > Above
      loop
         Next (Spot);
      end loop;
      Line.Insert (Spot, T);
   end Place;

   procedure Place_At_Tail (M : State; T : Task_Id) is
   begin
      Remove (T);
      Place (M, T, Above => M.Tasks (T).Base - 1);
   end Place_At_Tail;

   procedure Place_At_Head (M : State; T : Task_Id) is
   begin
      Remove (T);
      Place (M, T, Above => M.Tasks (T).Base);
   end Place_At_Head;

   --  What the accepted command does to the line.  Before is the state that
   --  it met; the actives of the other tasks are the same in both.
   procedure Follow (Before, After : State; C : Command; Result : Answer) is
      Runner : constant Task_Id := Running (Before);
   begin
      case Matching (C.Op) is
         when Op_Create =>
            Place_At_Tail (After, Task_Id (C.A));
         when Op_Delay =>
            if C.Value > Before.Clock then
               Remove (Runner);
            else
               Place_At_Tail (After, Runner);
            end if;
         when Op_Wake =>
            if Result.Released /= Idle then
               Place_At_Tail (After, Result.Released);
            end if;
         when Op_Closep | Op_Done =>
            if Result.Released /= Idle then
               --  the closer still has its ceiling (READINGS 7)
               Remove (Result.Released);
               Place (Before, Result.Released,
                      Above => Before.Tasks (Result.Released).Base - 1);
            end if;
            Place_At_Head (After, Runner);
         when Op_Closef =>
            Place_At_Head (After, Runner);
         when Op_Entry =>
            if C.B = 0 then
               Remove (Runner);
            end if;
         when others =>
            null;
      end case;
   end Follow;

   --  The line must be what the searches find, front by front.
   procedure Compare_Lines (M : State) is
      Rest  : State := M;
      Front : Task_Id;
   begin
      Compared := Compared + 1;
      Rest.Started := True;  --  so that Running answers the front
      for T of Line loop
         Front := Running (Rest);
         if Front /= T then
            Complain ("task" & Front'Image & " found,"
                      & T'Image & " in the line");
         end if;
         Rest.Tasks (Front) := (Stands => Absent, others => <>);
         if Front = Idle then
            exit;
         end if;
      end loop;
      if Line.Last_Element /= Idle
        or else (for some T of Rest.Tasks => T.Stands = Ready)
      then
         Complain ("a ready task is not in the line, or idle is not last");
      end if;
   end Compare_Lines;

   --  "where B holds an object of ceiling c, every task ahead of B in the
   --  ready line has a base above c" (READINGS, Release)
   procedure Check_Holders (M : State) is
      Ahead_Least : Priority := Priority'Last;
      Object      : Object_Id;
   begin
      for T of Line loop
         Object := Object_Held (M, T);
         if Object /= Null_Object and then T /= Line.First_Element
           and then Ahead_Least <= M.Objects (Object).Ceiling
         then
            Complain ("a task ahead of a holder could take its object");
         end if;
         Ahead_Least := Priority'Min (Ahead_Least, M.Tasks (T).Base);
      end loop;
   end Check_Holders;

   --  Wakes left is n > 0: a Wake makes it n - 1, and releases the task at
   --  n = 1; every other command leaves it.
   procedure Check_Wakes (Before, After : State; C : Command; Result : Answer)
   is
      Number     : Code;
      Was, Is_Now : Natural;
   begin
      for T in 1 .. 31 loop
         Wakes_Left (Before, T, Number, Was);
         Wakes_Left (After, T, Number, Is_Now);
         if Was > 0 then
            if C.Op = Op_Wake and then Result.Number = Accepted then
               if Is_Now /= Was - 1
                 or else (Was = 1) /= (Result.Released = Task_Id (T))
               then
                  Complain ("a Wake and Wakes left disagree");
               end if;
            elsif Is_Now /= Was then
               Complain ("Wakes left changed without a Wake");
            end if;
         end if;
      end loop;
   end Check_Wakes;

   --  When an exception was last set for a task, and when an accepted answer
   --  last named it as running; by the count of commands.
   type Count_Of_Task is array (Task_Id) of Ticks;
   Set_At, Named_At   : Count_Of_Task := (others => 0);
   Commands           : Ticks := 0;
   At_Once, Later     : Ticks := 0;  --  exceptions shown

   procedure Set_Exception (C : Command; Closer : Task_Id; Result : Answer) is
   begin
      if C.Op in Op_Failp | Op_Failf | Op_Faile then
         Set_At (Closer) := Commands;
      elsif C.Op = Op_Failw and then Result.Released /= Idle then
         Set_At (Result.Released) := Commands;
      end if;
   end Set_Exception;

   --  An answer shows an exception exactly where one was set for its running
   --  task, by it or since the last accepted one that named the task.
   procedure Check_Exceptions
     (Before, After : State; C : Command; Result : Answer)
   is
      Runner : Task_Id renames Result.Running;
   begin
      Commands := Commands + 1;
      if Result.Number = Accepted then
         Set_Exception (C, Running (Before), Result);
         if Result.Failed /= (Set_At (Runner) > Named_At (Runner)) then
            Complain ("an exception is shown that was not set, or not shown");
         end if;
         if Result.Failed and then Set_At (Runner) = Commands then
            At_Once := At_Once + 1;
         elsif Result.Failed then
            Later := Later + 1;
         end if;
         Named_At (Runner) := Commands;
      elsif Result.Failed then
         Complain ("a refused answer shows an exception");
      end if;
      for T in Task_Id loop
         if After.Owed (T) /= (Set_At (T) > Named_At (T))
           or else (After.Owed (T) and then After.Tasks (T).Stands /= Ready)
         then
            Complain ("pending, though shown or of no ready task");
         end if;
      end loop;
   end Check_Exceptions;

   --  A task released by op 5, 8, 11, 12, 14 or 15, until it runs.
   type Object_Of_Task is array (Task_Id) of Object_Id;
   type Release is record
      Is_Watched : Boolean := False;
      Kept       : Object_Of_Task := (others => Null_Object);
      --  what each task held at the release and has not closed since
      Has_Lower  : Boolean := False;
      Lower      : Task_Id := Idle;  --  the lower task that ran since
   end record;
   type Release_Set is array (Task_Id) of Release;

   Releases : Release_Set;
   Watched  : array (Op_Wake .. Last_Op) of Ticks := (others => 0);

   --  After the command: what the runner closed is kept no more, and the
   --  released task is watched.
   procedure Follow_Releases
     (Before, After : State; C : Command; Result : Answer)
   is
      New_One : Release := (Is_Watched => True, others => <>);
   begin
      if Matching (C.Op) in Op_Closep | Op_Closef | Op_Done then
         for R of Releases loop
            R.Kept (Running (Before)) := Null_Object;
         end loop;
      end if;
      if Result.Released /= Idle then
         for T in Task_Id loop
            New_One.Kept (T) := Object_Held (After, T);
         end loop;
         Releases (Result.Released) := New_One;
         Watched (C.Op) := Watched (C.Op) + 1;
      end if;
   end Follow_Releases;

   --  "if the tasks running at i and at j both have a base below T's, they
   --  are one task L; L holds an object O in s k; and L has closed O at no
   --  command from k+1 to i" (READINGS, Release; a release by done too, by
   --  change request 2; "Demand 3 reads these closings as closings", change
   --  request 6)
   procedure Check_Releases (M : State) is
      Runner : constant Task_Id := Running (M);
   begin
      Releases (Runner).Is_Watched := False;
      for T in Task_Id loop
         if Releases (T).Is_Watched
           and then M.Tasks (Runner).Base < M.Tasks (T).Base
         then
            if Releases (T).Has_Lower and then Releases (T).Lower /= Runner
            then
               Complain ("two lower tasks ran before a released one");
            elsif Releases (T).Kept (Runner) = Null_Object then
               Complain ("a lower task ran outside before a released one");
            end if;
            Releases (T).Has_Lower := True;
            Releases (T).Lower     := Runner;
         end if;
      end loop;
   end Check_Releases;

   procedure Run_Command (M : in out State; C : Command) is
      Before : constant State := M;
      Result : Answer;
   begin
      Step (M, C, Result);
      if Result.Number = Accepted then
         Follow (Before, M, C, Result);
         Follow_Releases (Before, M, C, Result);
      elsif M /= Before then
         Complain ("a refused step changed the state");
      end if;
      if Result.Number = Held then
         Complain ("Held (11) occurred");
      end if;
      Compare_Lines (M);
      Check_Holders (M);
      Check_Wakes (Before, M, C, Result);
      Check_Exceptions (Before, M, C, Result);
      Check_Releases (M);
   end Run_Command;

   procedure Run_Script (Number : Ticks) is
      M     : State;
      Likes : Taste;
   begin
      Start ('l', Number);
      Likes := Some_Taste;
      Line.Clear;
      Line.Append (Idle);
      Releases := (others => <>);
      Set_At   := (others => 0);
      Named_At := (others => 0);
      for I in 1 .. Between (1, 31) loop
         Run_Command (M, New_Task (M, Likes));
      end loop;
      for I in 1 .. Below (8) loop
         Run_Command (M, New_Object (M, Likes));
      end loop;
      Run_Command (M, (Op => Op_Start, others => <>));
      for I in 1 .. 400 loop
         Run_Command (M, (case Below (20) is
                             when 0      => Random_Command (M),
                             when 1 | 2  => Refused_Command (M, Likes),
                             when others => Accepted_Command (M, Likes)));
      end loop;
   end Run_Script;

begin
   for Number in Ticks range 1 .. 200 loop
      Run_Script (Number);
   end loop;
   for Op in Op_Wake .. Last_Op loop
      if Matching (Op) in Op_Wake | Op_Closep | Op_Done
        and then Watched (Op) = 0
      then
         Complain ("op" & Op'Image & " released nobody");
      end if;
   end loop;
   if At_Once = 0 or else Later = 0 then
      Complain ("no exception was shown at once, or none later");
   end if;
   Put_Line ("line_test: " & Image (Compared) & " lines compared, "
             & Image (Watched (Op_Wake)) & " releases by wake, "
             & Image (Watched (Op_Closep)) & " by closep and "
             & Image (Watched (Op_Done)) & " by done, "
             & Image (Watched (Op_Failp)) & " by failp, "
             & Image (Watched (Op_Faile)) & " by faile and "
             & Image (Watched (Op_Failw)) & " by failw watched, "
             & Image (At_Once) & " exceptions shown at once and "
             & Image (Later) & " later, "
             & Image (Failures) & " failures");
   Flush;
   Ada.Command_Line.Set_Exit_Status (if Failures = 0 then 0 else 1);
end Line_Test;
