--  What text cannot reach: unknown ops, unused operands, a state in which
--  another task holds the object, one in which the runner, a sleeper or a
--  waiter has a pending exception, "Wakes left", the chip's delay queue, a
--  clock too near its end for the generator.  Expected values are taken from
--  document 01, change requests 6 and 7 and document 000 by hand.

with Ada.Command_Line;
with Byte_IO;   use Byte_IO;
with Chip_Queue;
with Decimals;  use Decimals;
with Generator; use Generator;
with Machine;   use Machine;

procedure Unit_Test is

   Checks, Failures : Ticks := 0;

   procedure Check (Name : String; Got, Expected : Ticks) is
   begin
      Checks := Checks + 1;
      if Got /= Expected then
         Failures := Failures + 1;
         Put_Line ("unit_test: " & Name & ": got " & Image (Got)
                   & ", expected " & Image (Expected));
      end if;
   end Check;

   procedure Check_Step
     (Name : String; M : in out State; C : Command; Number : Code)
   is
      Result : Answer;
   begin
      Step (M, C, Result);
      Check (Name, Ticks (Result.Number), Ticks (Number));
   end Check_Step;

   procedure Must (M : in out State; Op, A, B : Natural; Value : Ticks := 0) is
   begin
      Check_Step ("accepted op" & Op'Image, M, (Op, A, B, Value), Accepted);
   end Must;

   --  Tasks 1 (base 3), 2 (base 9) and object 1 (ceiling 5), 2 (ceiling 9).
   function Small_System return State is
      M : State;
   begin
      Must (M, Op_Create, 1, 3);
      Must (M, Op_Create, 2, 9);
      Must (M, Op_Object, 1, 5);
      Must (M, Op_Object, 2, 9);
      return M;
   end Small_System;

   --  4: "unknown op"; "an unused operand not 0"; and 4 before 2 and 3.
   procedure Test_Range is
      M : State := Small_System;
   begin
      for Round in 1 .. 2 loop
         for Op in 16 .. 300 loop
            Check_Step ("unknown op", M, (Op, 0, 0, 0), Out_Of_Range);
            Check_Step ("unknown op, a", M, (Op, 1, 0, 0), Out_Of_Range);
         end loop;
         Check_Step ("op 0", M, (0, 0, 0, 0), Out_Of_Range);
         Check_Step ("create value", M, (1, 3, 3, 1), Out_Of_Range);
         Check_Step ("object value", M, (2, 3, 3, 1), Out_Of_Range);
         Check_Step ("start a", M, (3, 1, 0, 0), Out_Of_Range);
         Check_Step ("start b", M, (3, 0, 1, 0), Out_Of_Range);
         Check_Step ("start value", M, (3, 0, 0, 1), Out_Of_Range);
         Check_Step ("delay a", M, (4, 1, 0, 5), Out_Of_Range);
         Check_Step ("delay b", M, (4, 0, 1, 5), Out_Of_Range);
         Check_Step ("wake a", M, (5, 1, 0, 0), Out_Of_Range);
         Check_Step ("wake b", M, (5, 0, 1, 0), Out_Of_Range);
         Check_Step ("wake value", M, (5, 0, 0, 1), Out_Of_Range);
         Check_Step ("advance a", M, (6, 1, 0, 5), Out_Of_Range);
         Check_Step ("advance b", M, (6, 0, 1, 5), Out_Of_Range);
         Check_Step ("open b", M, (7, 1, 1, 0), Out_Of_Range);
         Check_Step ("open value", M, (7, 1, 0, 1), Out_Of_Range);
         Check_Step ("closep value", M, (8, 1, 1, 1), Out_Of_Range);
         Check_Step ("closef b", M, (9, 1, 1, 0), Out_Of_Range);
         Check_Step ("closef value", M, (9, 1, 0, 1), Out_Of_Range);
         Check_Step ("entry value", M, (10, 1, 1, 1), Out_Of_Range);
         Check_Step ("done b", M, (11, 1, 2, 0), Out_Of_Range);
         Check_Step ("done b, high", M, (11, 1, 256, 0), Out_Of_Range);
         Check_Step ("done value", M, (11, 1, 0, 1), Out_Of_Range);
         Check_Step ("done b and value", M, (11, 1, 1, 1), Out_Of_Range);
         for Op in 12 .. 15 loop
            Check_Step ("fails a", M, (Op, 0, 0, 0), Out_Of_Range);
            Check_Step ("fails a, high", M, (Op, 257, 0, 0), Out_Of_Range);
            Check_Step ("fails b", M, (Op, 1, 2, 0), Out_Of_Range);
            Check_Step ("fails b, high", M, (Op, 1, 256, 0), Out_Of_Range);
            Check_Step ("fails value", M, (Op, 1, 0, 1), Out_Of_Range);
         end loop;
         Check_Step ("failf b", M, (13, 1, 1, 0), Out_Of_Range);
         if Round = 1 then
            Must (M, Op_Start, 0, 0);
         end if;
      end loop;
   end Test_Range;

   --  11: "another task holds the object".  From the fresh machine a runner
   --  that is not the holder has a base above the ceiling, and Ceiling comes
   --  first; so the state is forged: task 3 holds object 2 without having
   --  run, and stands at its ceiling behind task 2.
   procedure Test_Held is
      M : State := Small_System;
   begin
      Must (M, Op_Create, 3, 3);
      Must (M, Op_Start, 0, 0);
      M.Tasks (3).Holds := 2;
      Check ("runner", Ticks (Running (M)), 2);
      Check_Step ("open", M, (Op_Open, 2, 0, 0), Held);
      Check_Step ("entry 1", M, (Op_Entry, 2, 1, 0), Held);
      Check_Step ("entry 0", M, (Op_Entry, 2, 0, 0), Held);
      Check_Step ("Outside", M, (Op_Closef, 2, 0, 0), Outside);
      M.Objects (2).Ceiling := 8;
      Check_Step ("Ceiling first", M, (Op_Open, 2, 0, 0), Ceiling);
   end Test_Held;

   --  A step: its number, its running task, and whether it shows an exception.
   procedure Check_Shown
     (Name    : String;
      M       : in out State;
      C       : Command;
      Number  : Code;
      Runner  : Task_Id;
      Failed  : Boolean)
   is
      Result : Answer;
   begin
      Step (M, C, Result);
      Check (Name & ", code", Ticks (Result.Number), Ticks (Number));
      Check (Name & ", running", Ticks (Result.Running), Ticks (Runner));
      Check (Name & ", exception", Boolean'Pos (Result.Failed),
             Boolean'Pos (Failed));
   end Check_Shown;

   --  From the fresh machine a runner never has a pending exception between
   --  two steps: the answer that named it has cleared it.  Nor does one that
   --  sleeps or waits: it ran before.  So the states are forged, from this one:
   --  task 1 runs, task 2 waits on object 2, which task 1 holds if Inside.
   function Waited_On (Inside : Boolean; Owes : Task_Id) return State is
      M : State := Small_System;
   begin
      Must (M, Op_Start, 0, 0);
      Must (M, Op_Entry, 2, 0);
      if Inside then
         Must (M, Op_Open, 2, 0);
      end if;
      M.Owed (Owes) := True;
      return M;
   end Waited_On;

   procedure Test_Pending is
      M     : State := Waited_On (Inside => False, Owes => 1);
      Shown : Command := (Op_Advance, 0, 0, 0);
   begin
      --  "The first accepted answer": refused ones neither show nor clear.
      Check_Shown ("Missing", M, (Op_Open, 7, 0, 0), Missing, 1, False);
      Check_Shown ("Late", M, (Op_Start, 0, 0, 0), Late, 1, False);
      Check_Shown ("Outside", M, (Op_Failp, 2, 1, 0), Outside, 1, False);
      Check_Shown ("Range", M, (16, 0, 0, 0), Out_Of_Range, 1, False);
      Check ("still pending", Boolean'Pos (M.Owed (1)), 1);
      Check_Shown ("accepted", M, Shown, Accepted, 1, True);
      Check_Shown ("once", M, Shown, Accepted, 1, False);
      for Op in 1 .. 4 loop  --  each op that leaves it running shows it
         Shown := (case Op is
                      when 1      => (Op_Wake, 0, 0, 0),
                      when 2      => (Op_Open, 2, 0, 0),
                      when 3      => (Op_Entry, 2, 1, 0),
                      when others => (Op_Delay, 0, 0, 0));
         M := Waited_On (Inside => False, Owes => 1);
         Check_Shown ("shown by any op", M, Shown, Accepted, 1, True);
         Check ("cleared", Boolean'Pos (M.Owed (1)), 0);
      end loop;
   end Test_Pending;

   --  "An exception for a task with one pending keeps the older."
   procedure Test_Older is
      M : State := Waited_On (Inside => True, Owes => 1);
   begin
      --  of the closer, which runs on, or does not
      Check_Shown ("one, at once", M, (Op_Failf, 2, 0, 0), Accepted, 1, True);
      Check_Shown ("no second", M, (Op_Wake, 0, 0, 0), Accepted, 1, False);
      M := Waited_On (Inside => True, Owes => 1);
      Check_Shown ("not yet", M, (Op_Failp, 2, 1, 0), Accepted, 2, False);
      Check_Shown ("one, later", M, (Op_Delay, 0, 0, 9), Accepted, 1, True);
      Check_Shown ("no second", M, (Op_Wake, 0, 0, 0), Accepted, 1, False);
      --  of the waiter, which op 15 releases
      M := Waited_On (Inside => True, Owes => 2);
      Check_Shown ("waiter's", M, (Op_Failw, 2, 1, 0), Accepted, 2, True);
      Check_Shown ("no second", M, (Op_Wake, 0, 0, 0), Accepted, 2, False);
      --  of a waiter and of a sleeper, which others release
      M := Waited_On (Inside => True, Owes => 2);
      Check_Shown ("closep", M, (Op_Closep, 2, 1, 0), Accepted, 2, True);
      Must (M, Op_Delay, 0, 0, 5);
      M.Owed (2) := True;
      Must (M, Op_Advance, 0, 0, 5);
      Check_Shown ("woken", M, (Op_Wake, 0, 0, 0), Accepted, 2, True);
   end Test_Older;

   procedure Check_Wakes
     (M : State; T : Natural; Number : Code; Wakes : Natural)
   is
      Got_Number : Code;
      Got_Wakes  : Natural;
   begin
      Wakes_Left (M, T, Got_Number, Got_Wakes);
      Check ("Wakes left, code", Ticks (Got_Number), Ticks (Number));
      Check ("Wakes left", Ticks (Got_Wakes), Ticks (Wakes));
   end Check_Wakes;

   --  "(checks 1, 4, 6): if the task is delayed and due, one more than the
   --  count of entries ahead of it in the delay line; otherwise 0."
   procedure Test_Wakes_Left is
      M : State := Small_System;
   begin
      Must (M, Op_Create, 3, 3);
      Check_Wakes (M, 0, Out_Of_Range, 0);
      Check_Wakes (M, 32, Out_Of_Range, 0);
      Check_Wakes (M, 31, Missing, 0);
      Check_Wakes (M, 1, Accepted, 0);  --  before Start: no Early
      Must (M, Op_Start, 0, 0);
      Must (M, Op_Delay, 0, 0, 7);  --  task 2
      Must (M, Op_Delay, 0, 0, 5);  --  task 1
      Must (M, Op_Delay, 0, 0, 5);  --  task 3
      Check_Wakes (M, 1, Accepted, 0);  --  delayed, not due
      Must (M, Op_Advance, 0, 0, 5);
      Check_Wakes (M, 1, Accepted, 1);
      Check_Wakes (M, 3, Accepted, 2);  --  equal time, entered later
      Check_Wakes (M, 2, Accepted, 0);  --  7 is above the clock
      Must (M, Op_Advance, 0, 0, 2);
      Check_Wakes (M, 2, Accepted, 3);
      Must (M, Op_Wake, 0, 0);
      Check_Wakes (M, 1, Accepted, 0);  --  ready
      Check_Wakes (M, 3, Accepted, 1);
      Check_Wakes (M, 2, Accepted, 2);
   end Test_Wakes_Left;

   Even : constant Profile := (Span => 100, Weights => (others => 10));

   --  "from seed 1 the draws 270369, 67634689, 2647435461"
   procedure Test_Draws is
      Seed  : Word_32 := 1;
      Drawn : Word_32;
   begin
      Advance (Seed, Drawn);
      Check ("draw 1", Ticks (Drawn), 270_369);
      Advance (Seed, Drawn);
      Check ("draw 2", Ticks (Drawn), 67_634_689);
      Advance (Seed, Drawn);
      Check ("draw 3", Ticks (Drawn), 2_647_435_461);
      Check ("the seed is what was drawn", Ticks (Seed), 2_647_435_461);
   end Test_Draws;

   procedure Check_Draw
     (Name : String; M : State; P : Profile; Seed : Word_32; Number : Code)
   is
      Lent  : Word_32;
      Got   : Code;
      C     : Command;
      Spent : Natural;
   begin
      for By in Edition loop
         Lent := Seed;
         Draw (By, M, P, Lent, Got, C, Spent);
         Check (Name, Ticks (Got), Ticks (Number));
         if Number /= Accepted then
            Check (Name & ", same seed", Ticks (Lent), Ticks (Seed));
            Check (Name & ", op 0", Ticks (C.Op + C.A + C.B) + C.Value, 0);
            Check (Name & ", no draw", Ticks (Spent), 0);
         end if;
      end loop;
   end Check_Draw;

   --  "A draw: 1, 17, 18, 2."
   procedure Test_Draw_Refusals is
      Fresh   : constant State := (others => <>);
      Started : State;
      Bad     : Profile := Even;
   begin
      Must (Started, Op_Start, 0, 0);
      Bad.Weights (Op_Wake) := 0;
      Check_Draw ("17 first", Fresh, Bad, 0, Bad_Seed);
      Check_Draw ("then 18", Fresh, Bad, 1, Bad_Profile);
      Check_Draw ("then 2", Fresh, Even, 1, Early);
      Check_Draw ("accepted", Started, Even, 1, Accepted);
      Check_Draw ("span 0", Started, (0, Even.Weights), 1, Bad_Profile);
      Check_Draw ("span 1", Started, (1, Even.Weights), 1, Accepted);
      Check_Draw ("largest span", Started, (1_000_000, Even.Weights), 1,
                  Accepted);
      Check_Draw ("span too large", Started, (1_000_001, Even.Weights), 1,
                  Bad_Profile);
      for Op in Drawn_Op loop
         Bad := Even;
         Bad.Weights (Op) := 100;
         Check_Draw ("weight 100", Started, Bad, 1, Accepted);
         Bad.Weights (Op) := 101;
         Check_Draw ("weight 101", Started, Bad, 1, Bad_Profile);
      end loop;
   end Test_Draw_Refusals;

   --  The seed after that many draws.
   function Left (Seed : Word_32; Draws : Natural) return Word_32 is
      Current : Word_32 := Seed;
      Drawn   : Word_32;
   begin
      for I in 1 .. Draws loop
         Advance (Current, Drawn);
      end loop;
      return Current;
   end Left;

   --  A choice is below its limit, and "The draws spent are told truly: the
   --  seed left is the draw applied that many times" (READINGS-02, 4).
   procedure Test_Choices is
      Seed   : Word_32 := 2_863_311_531;
      Before : Word_32;
      N      : Word_32;
      Choice : Word_32;
      Spent  : Positive;
   begin
      for I in 1 .. 2000 loop
         Advance (Seed, N);
         N      := Word_32'Max (1, N / 2 ** (I mod 32));
         Before := Seed;
         Choose_Evenly (N, Seed, Choice, Spent);
         Check ("a choice is below", Boolean'Pos (Choice < N), 1);
         Check ("at most eight draws", Boolean'Pos (Spent <= 8), 1);
         Check ("told truly", Ticks (Seed), Ticks (Left (Before, Spent)));
         Check ("the last less 1, mod n", Ticks (Choice),
                Ticks ((Seed - 1) mod N));
      end loop;
      for Start in Word_32 range 1 .. 1000 loop
         Seed := Start * 4_294_961;
         Choose_Evenly (1, Seed, Choice, Spent);
         Check ("below 1", Ticks (Choice), 0);
         Check ("below 1 spends one", Ticks (Spent), 1);
      end loop;
   end Test_Choices;

   --  "every drawn command is accepted", by either edition, and the draws are
   --  told truly.
   procedure Test_Editions is
      Seed, Before : Word_32;
      M            : State;
      Number       : Code;
      C            : Command;
      Result       : Answer;
      Spent        : Natural;
      Menu         : Profile := Even;
   begin
      for By in Edition loop
         for Start in Word_32 range 1 .. 6 loop
            M := Small_System;
            Must (M, Op_Create, 3, 3);
            Must (M, Op_Object, 7, 15);
            Must (M, Op_Start, 0, 0);
            Seed      := Start * 715_827_882;
            Menu.Span := 999_527 / Start;
            for I in 1 .. 2000 loop
               Before := Seed;
               Draw (By, M, Menu, Seed, Number, C, Spent);
               Check ("drawn", Ticks (Number), 0);
               Check ("told truly", Ticks (Seed),
                      Ticks (Left (Before, Spent)));
               Check ("three and more", Boolean'Pos (Spent in 3 .. 24), 1);
               if By = 1 then
                  Check ("three", Ticks (Spent), 3);
               end if;
               Step (M, C, Result);
               Check ("accepted", Ticks (Result.Number), 0);
            end loop;
         end loop;
      end loop;
   end Test_Editions;

   --  How many of 300 draws in a state are of that kind.
   function Drawn_Count (M : State; Op : Drawn_Op) return Natural is
      Seed   : Word_32 := 12_345;
      Number : Code;
      C      : Command;
      Count  : Natural := 0;
   begin
      for I in 1 .. 300 loop
         Draw (M, Even, Seed, Number, C);
         if C.Op = Op then
            Count := Count + 1;
         end if;
      end loop;
      return Count;
   end Drawn_Count;

   --  "delay ... and advance, both only if clock + span is at most 2^64-1"
   procedure Test_End_Of_Clock is
      M : State := Small_System;
   begin
      Must (M, Op_Start, 0, 0);
      Must (M, Op_Advance, 0, 0, Ticks'Last - 100);
      Check ("delay just legal", Boolean'Pos (Drawn_Count (M, 4) > 0), 1);
      Check ("advance just legal", Boolean'Pos (Drawn_Count (M, 6) > 0), 1);
      Must (M, Op_Advance, 0, 0, 1);
      Check ("no delay", Ticks (Drawn_Count (M, 4)), 0);
      Check ("no advance", Ticks (Drawn_Count (M, 6)), 0);
      Check ("wake", Boolean'Pos (Drawn_Count (M, 5) > 0), 1);
      Check ("open", Boolean'Pos (Drawn_Count (M, 7) > 0), 1);
   end Test_End_Of_Clock;

   procedure Check_Decimal (Text : String; Most : Ticks; Right : Boolean) is
   begin
      Check ("decimal " & Text,
             Boolean'Pos (Is_Decimal (Text, Most)), Boolean'Pos (Right));
      if Right then
         Check ("there and back " & Text,
                Boolean'Pos (Image (Value (Text)) = Text), 1);
      end if;
   end Check_Decimal;

   procedure Test_Decimals is
      Largest : constant String := "18446744073709551615";
   begin
      Check_Decimal ("0", 255, True);
      Check_Decimal ("9", 255, True);
      Check_Decimal ("10", 255, True);
      Check_Decimal ("255", 255, True);
      Check_Decimal ("256", 255, False);
      Check_Decimal ("260", 255, False);
      Check_Decimal ("1000", 255, False);
      Check_Decimal ("", 255, False);
      Check_Decimal ("00", 255, False);
      Check_Decimal ("01", 255, False);
      Check_Decimal ("+1", 255, False);
      Check_Decimal ("1 ", 255, False);
      Check_Decimal ("/", 255, False);
      Check_Decimal (":", 255, False);
      Check_Decimal (Largest, Ticks'Last, True);
      Check_Decimal ("18446744073709551616", Ticks'Last, False);
      Check_Decimal ("18446744073709551620", Ticks'Last, False);
      Check_Decimal ("99999999999999999999", Ticks'Last, False);
      Check_Decimal ("184467440737095516150", Ticks'Last, False);
      Check ("2^64-1", Value (Largest), Ticks'Last);
   end Test_Decimals;

   procedure Check_Registers
     (Name : String; Q : Chip_Queue.Queue; Pid : Task_Id; Time, Age : Ticks) is
   begin
      Check (Name & ", task", Ticks (Q.PidDQ), Ticks (Pid));
      Check (Name & ", time", Q.T.Time, Time);
      Check (Name & ", age", Ticks (Chip_Queue.Age (Q, Q.T)), Age);
   end Check_Registers;

   procedure Check_Cell
     (Q : Chip_Queue.Queue; Pid : Task_Id; Time, Age : Ticks)
   is
      Cell : constant Chip_Queue.Entered := Q.DQ_RAM (Pid);
   begin
      Check ("queue: time of" & Pid'Image, Cell.Time, Time);
      Check ("queue: age of" & Pid'Image,
             Ticks (Chip_Queue.Age (Q, Cell)), Age);
   end Check_Cell;

   procedure Check_Left
     (Q : Chip_Queue.Queue; Clock : Ticks; Pid : Task_Id; Left : Ticks) is
   begin
      Check ("queue: wakes left of" & Pid'Image & " at" & Clock'Image,
             Ticks (Chip_Queue.Wakes_Left (Q, Clock, Pid)), Left);
   end Check_Left;

   procedure Check_Wake
     (Q : in out Chip_Queue.Queue; Clock : Ticks; Pid : Task_Id)
   is
      Released : Task_Id;
   begin
      Chip_Queue.Wake (Q, Clock, Released);
      Check ("queue: released at" & Clock'Image,
             Ticks (Released), Ticks (Pid));
   end Check_Wake;

   --  The three cases of a delay (document 000, 6.4); a tie keeps the older in
   --  the registers; a search among equal times, where the lower task number
   --  is the younger; a task that comes back behind its equals.
   procedure Test_Chip_Queue is
      Q : Chip_Queue.Queue;
   begin
      Check_Wake (Q, 100, 0);
      Check_Registers ("queue: none", Q, 0, 0, 0);
      Chip_Queue.Delay_Until (Q, 5, 20);
      Check_Registers ("queue: the first", Q, 5, 20, 1);
      Chip_Queue.Delay_Until (Q, 9, 30);
      Check_Registers ("queue: a later", Q, 5, 20, 1);
      Chip_Queue.Delay_Until (Q, 2, 20);
      Check_Registers ("queue: an equal", Q, 5, 20, 2);
      Chip_Queue.Delay_Until (Q, 31, 10);
      Check_Registers ("queue: a sooner", Q, 31, 10, 1);
      Check_Cell (Q, 2, 20, 1);
      Check_Cell (Q, 5, 20, 2);
      Check_Cell (Q, 9, 30, 1);
      Check_Cell (Q, 31, 0, 0);
      Check_Wake (Q, 9, 0);
      Check_Left (Q, 9, 31, 0);
      Check_Left (Q, 20, 31, 1);
      Check_Left (Q, 20, 5, 2);
      Check_Left (Q, 20, 2, 3);
      Check_Left (Q, 20, 9, 0);
      Check_Left (Q, 20, 1, 0);
      Check_Wake (Q, 20, 31);
      Check_Registers ("queue: the older of two", Q, 5, 20, 2);
      Chip_Queue.Delay_Until (Q, 31, 30);
      Check_Cell (Q, 9, 30, 2);
      Check_Cell (Q, 31, 30, 1);
      Check_Left (Q, 30, 9, 3);
      Check_Left (Q, 30, 31, 4);
      Check_Wake (Q, 30, 5);
      Check_Registers ("queue: the younger", Q, 2, 20, 1);
      Check_Wake (Q, 30, 2);
      Check_Registers ("queue: it came first", Q, 9, 30, 2);
      Check_Wake (Q, 30, 9);
      Check_Wake (Q, 30, 31);
      Check_Registers ("queue: none again", Q, 0, 0, 0);
      Check ("queue: len", Ticks (Q.Len), 0);
   end Test_Chip_Queue;

begin
   Test_Range;
   Test_Held;
   Test_Pending;
   Test_Older;
   Test_Wakes_Left;
   Test_Chip_Queue;
   Test_Draws;
   Test_Draw_Refusals;
   Test_Choices;
   Test_Editions;
   Test_End_Of_Clock;
   Test_Decimals;
   Put_Line ("unit_test: " & Image (Checks) & " checks, "
             & Image (Failures) & " failures");
   Flush;
   Ada.Command_Line.Set_Exit_Status (if Failures = 0 then 0 else 1);
end Unit_Test;
