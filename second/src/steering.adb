with Fresh_Numbers; use Fresh_Numbers;

package body Steering is

   --  In Ada the order in which the parts of an aggregate or a call are
   --  evaluated is open.  So that a number makes the same input everywhere,
   --  no expression below draws twice; draws stand in declarations.

   type Object_Test is access function
     (M : State; Object : Real_Object) return Boolean;

   function Some_Taste return Taste is
      T : Taste;
   begin
      T.Levels := (case Below (5) is
                      when 0      => 1,
                      when 1      => 2,
                      when 2      => 4,
                      when others => 15);
      T.Lowest  := Between (1, 16 - T.Levels);
      T.Far     := (case Below (4) is
                       when 0      => 1,
                       when 1      => 4,
                       when 2      => 30,
                       when others => 1000);
      T.Sleepy  := Between (5, 60);
      T.Busy    := Between (5, 60);
      T.Waking  := Between (2, 40);
      T.Passing := Between (2, 20);
      if Chance (15) then
         --  All go to sleep before one is woken: the longest delay lines.
         T.Sleepy  := 95;
         T.Busy    := 3;
         T.Waking  := 1;
         T.Passing := 1;
      end if;
      return T;
   end Some_Taste;

   function Some_Level (Likes : Taste) return Natural is
     (Likes.Lowest + Below (Likes.Levels));

   --  A number at a limit more often than between the limits.
   function Some_Operand return Natural is
     (case Below (12) is
         when 0      => 0,
         when 1      => 1,
         when 2      => 7,
         when 3      => 8,
         when 4      => 15,
         when 5      => 16,
         when 6      => 31,
         when 7      => 32,
         when 8      => 255,
         when 9      => 2,
         when others => Below (34));

   ----------------
   -- Exceptions --
   ----------------

   --  The op that fails as Op closes; of the two for closep the second where
   --  Second says so.
   function Failing_Op (Op : Natural; Second : Boolean) return Natural is
     (case Op is
         when Op_Closep => (if Second then Op_Failw else Op_Failp),
         when Op_Closef => Op_Failf,
         when Op_Done   => Op_Faile,
         when others    => Op);

   function Or_Failing (C : Command) return Command is
      Choice : constant Natural := Below_Aside (5);
   begin
      return (if Choice <= 1 then C
              else (Failing_Op (C.Op, Choice = 4), C.A, C.B, C.Value));
   end Or_Failing;

   -------------
   -- Objects --
   -------------

   --  Some object that passes the test, from a drawn place on; Null_Object
   --  if there is none.
   function Some_Object
     (M : State; Passes : not null Object_Test) return Object_Id
   is
      Start : constant Natural := Below (7);
      Object : Real_Object;
   begin
      for I in 0 .. 6 loop
         Object := Object_Id (1 + (Start + I) mod 7);
         if Passes (M, Object) then
            return Object;
         end if;
      end loop;
      return Null_Object;
   end Some_Object;

   function Is_Declared (M : State; Object : Real_Object) return Boolean is
     (M.Objects (Object).Declared);

   function Is_Undeclared (M : State; Object : Real_Object) return Boolean is
     (not M.Objects (Object).Declared);

   function Has_Waiter (M : State; Object : Real_Object) return Boolean is
     (Waiter (M, Object) /= Idle);

   function Is_Too_Low (M : State; Object : Real_Object) return Boolean is
     (M.Objects (Object).Declared
      and then M.Objects (Object).Ceiling < M.Tasks (Running (M)).Base);

   function Is_Open_To_Runner
     (M : State; Object : Real_Object) return Boolean is
     (M.Objects (Object).Declared and then not Is_Too_Low (M, Object)
      and then Holder (M, Object) = Idle);

   --  As before, and somebody waits there.
   function Is_Waited_And_Open
     (M : State; Object : Real_Object) return Boolean is
     (Has_Waiter (M, Object) and then Is_Open_To_Runner (M, Object));

   --  Somebody waits there, and the runner is above its ceiling.
   function Is_Waited_And_Low
     (M : State; Object : Real_Object) return Boolean is
     (Has_Waiter (M, Object) and then Is_Too_Low (M, Object));

   function Pick
     (M : State; Passes : not null Object_Test) return Natural is
     (Natural (Some_Object (M, Passes)));

   -----------
   -- Setup --
   -----------

   function New_Task (M : State; Likes : Taste) return Command is
      Start : constant Natural := Below (31);
      T     : Natural;
   begin
      for I in 0 .. 30 loop
         T := 1 + (Start + I) mod 31;
         exit when M.Tasks (Task_Id (T)).Stands = Absent;
      end loop;
      return (Op_Create, T, Some_Level (Likes), 0);
   end New_Task;

   --  Ceilings among the priorities in use, mostly: too low for some tasks.
   function New_Object (M : State; Likes : Taste) return Command is
      Object : constant Natural := Pick (M, Is_Undeclared'Access);
      Top    : constant Natural := Likes.Lowest + Likes.Levels - 1;
      Level  : constant Natural :=
        (case Below (6) is
            when 0 .. 2 => Some_Level (Likes),
            when 3      => Top,
            when 4      => Between (Top, 15),
            when others => Between (1, 15));
   begin
      return (Op_Object, Integer'Max (1, Object), Level, 0);
   end New_Object;

   --------------
   -- Accepted --
   --------------

   --  A time at, around or after the clock; the line of possible times ends
   --  at 2^64-1.
   function Some_Time (M : State; Far : Positive) return Ticks is
      Room  : constant Ticks := Ticks'Last - M.Clock;
      Ahead : constant Ticks := Ticks (Between (1, Far));
   begin
      return (case Below (40) is
                 when 0 | 1  => M.Clock,
                 when 2 | 3  => M.Clock - Ticks'Min (M.Clock, Ahead),
                 when 4      => 0,
                 when 5      => Ticks'Last,
                 when others => M.Clock + Ticks'Min (Room, Ahead));
   end Some_Time;

   --  A step of the clock that stays in it: often to where the first delay
   --  ends, or one short of it.
   function Some_Advance (M : State; Far : Positive) return Ticks is
      First : constant Task_Id := First_Delayed (M);
      Room  : constant Ticks := Ticks'Last - M.Clock;
      Small : constant Ticks := Ticks'Min (Room, Ticks (Below (Far + 1)));
      Gap   : Ticks;
   begin
      if First = Idle or else M.Tasks (First).Time <= M.Clock then
         return Small;
      end if;
      Gap := M.Tasks (First).Time - M.Clock;
      --  Not to the very end of the clock, unless it is near already.
      if Gap > 1_000_000 and then Chance (95) then
         return Small;
      end if;
      return (case Below (4) is
                 when 0      => Small,
                 when 1      => Gap - 1,
                 when others => Gap);
   end Some_Advance;

   function Pass_Time (M : State; Likes : Taste) return Command is
     ((Op_Advance, 0, 0, Some_Advance (M, Likes.Far)));

   Wake_Command : constant Command := (Op => Op_Wake, others => <>);

   function Wake_Or_Advance (M : State; Likes : Taste) return Command is
     (if Chance (50) then Wake_Command else Pass_Time (M, Likes));

   --  The runner is inside: it may end that in its own way.
   function Closing (M : State) return Command is
      Runner : constant Task_Id := Running (M);
      Object : constant Natural := Natural (Object_Held (M, Runner));
   begin
      if M.Tasks (Runner).Way = By_Entry then
         return (Op_Done, Object, (if Chance (70) then 1 else 0), 0);
      end if;
      return (case Below (4) is
                 when 0      => (Op_Closef, Object, 0, 0),
                 when 1      => (Op_Closep, Object, 0, 0),
                 when others => (Op_Closep, Object, 1, 0));
   end Closing;

   --  The runner is outside: it may open or enter an object.
   function Taking (M : State; Likes : Taste) return Command is
      Waited : constant Natural := Pick (M, Is_Waited_And_Open'Access);
      Object : constant Natural :=
        (if Waited > 0 and then Chance (50) then Waited
         else Pick (M, Is_Open_To_Runner'Access));
   begin
      if Object = 0 then
         return Wake_Or_Advance (M, Likes);
      end if;
      case Below (5) is
         when 0 | 1 =>
            return (Op_Open, Object, 0, 0);
         when 2 =>
            return (Op_Entry, Object, 1, 0);
         when others =>
            return (if Has_Waiter (M, Object_Id (Object))
                    then (Op_Entry, Object, 1, 0)
                    else (Op_Entry, Object, 0, 0));
      end case;
   end Taking;

   function Good_Command (M : State; Likes : Taste) return Command is
      Runner : constant Task_Id := Running (M);
      Point  : constant Natural :=
        Below (Likes.Waking + Likes.Passing + Likes.Busy + Likes.Sleepy);
   begin
      if Point < Likes.Waking then
         return Wake_Command;
      elsif Point < Likes.Waking + Likes.Passing then
         return Pass_Time (M, Likes);
      elsif Runner = Idle then
         return Wake_Or_Advance (M, Likes);
      elsif Object_Held (M, Runner) /= Null_Object then
         return (if Chance (50) then Closing (M)
                 else Wake_Or_Advance (M, Likes));
      elsif Point < Likes.Waking + Likes.Passing + Likes.Busy then
         return Taking (M, Likes);
      else
         return (Op_Delay, 0, 0, Some_Time (M, Likes.Far));
      end if;
   end Good_Command;

   function Accepted_Command (M : State; Likes : Taste) return Command is
     (Or_Failing (Good_Command (M, Likes)));

   -------------
   -- Refused --
   -------------

   --  Some op on an object, 7..11, with the operands that it needs.
   function On_Object (Op : Natural; Object : Natural) return Command is
     ((Op, Object,
       (if Op in Op_Closep | Op_Entry | Op_Done then Below (2) else 0), 0));

   function Some_Taking_Op return Natural is
     (if Chance (50) then Op_Open else Op_Entry);

   function Some_Closing_Op return Natural is
     (case Below (3) is
         when 0      => Op_Closep,
         when 1      => Op_Closef,
         when others => Op_Done);

   --  A task that is there, from a drawn place on; 1 if none is.
   function Some_Created (M : State) return Natural is
      Start : constant Natural := Below (31);
      T     : Natural;
   begin
      for I in 0 .. 30 loop
         T := 1 + (Start + I) mod 31;
         if M.Tasks (Task_Id (T)).Stands /= Absent then
            return T;
         end if;
      end loop;
      return 1;
   end Some_Created;

   --  A thing set up twice before Start, or any set-up command after it.
   function Set_Up_Again (M : State; Likes : Taste) return Command is
      Level  : constant Natural := Some_Level (Likes);
      Number : constant Natural := Some_Created (M);
      Object : constant Natural := Pick (M, Is_Declared'Access);
   begin
      return (case Below (5) is
                 when 0 | 1  => (Op_Create, Number, Level, 0),
                 when 2 | 3  => (Op_Object, Integer'Max (1, Object), Level, 0),
                 when others =>
                   (if M.Started then (Op => Op_Start, others => <>)
                    else (Op_Create, Number, 16, 0)));
   end Set_Up_Again;

   --  An operand out of its range; the others are right or not.
   function Wrong_Operand return Command is
      Closing_Op : constant Natural := Some_Closing_Op;
      Limit      : constant Natural := Below (2);  --  at the low or high end
      Level      : constant Natural := Below (18);
      Object     : constant Natural := Between (1, 7);
      Large      : constant Natural := Between (8, 255);
   begin
      return (case Below (8) is
                 when 0      => (Op_Create, 32 * Limit, Level, 0),
                 when 1      => (Op_Create, Object, 16 * Limit, 0),
                 when 2      => (Op_Object, 8 * Limit, Level, 0),
                 when 3      => (Op_Object, Object, 16 * Limit, 0),
                 when 4      => (Closing_Op, Large, 0, 0),
                 when 5      => (Op_Entry, Object, 2 + Limit * Large, 0),
                 when 6      => (Op_Done, Object, 2 + Limit * Large, 0),
                 when others => (Op_Closep, Object, 2 + Limit, 0));
   end Wrong_Operand;

   --  What the runner, or idle, may not do where it stands.
   function Wrong_Place (M : State; Likes : Taste) return Command is
      Closing_Op : constant Natural := Some_Closing_Op;
      Taking_Op  : constant Natural := Some_Taking_Op;
      Object     : constant Natural := Pick (M, Is_Declared'Access);
      Own        : constant Natural := Natural (Object_Held (M, Running (M)));
   begin
      return (case Below (4) is
                 when 0      => (Op_Delay, 0, 0, Some_Time (M, Likes.Far)),
                 when 1      => On_Object (Closing_Op, Object),
                 when 2      => On_Object (Closing_Op, Own),
                 when others => On_Object (Taking_Op, Object));
   end Wrong_Place;

   function Past_The_Clock (M : State) return Command is
      Least : constant Ticks := Ticks'Last - M.Clock;
   begin
      if M.Clock = 0 then
         return (Op_Advance, 0, 0, Ticks'Last - 60);  --  so that it can be
      end if;
      return (Op_Advance, 0, 0,
              (case Below (3) is
                  when 0      => Least + 1,
                  when 1      => Ticks'Last,
                  when others => Ticks'Last - Ticks (Below (50))));
   end Past_The_Clock;

   --  The op on the object if there is one, else something else.
   function Aimed
     (M : State; Likes : Taste; Op, Object : Natural) return Command is
     (if Object > 0 then On_Object (Op, Object) else Wrong_Place (M, Likes));

   function Refused_Before_Start (M : State; Likes : Taste) return Command is
      Op     : constant Natural := Between (Op_Open, Op_Done);
      Object : constant Natural := Between (1, 7);
   begin
      return (case Below (6) is
                 when 0 .. 2 => Set_Up_Again (M, Likes),
                 when 3      => Wrong_Operand,
                 when 4      => On_Object (Op, Object),
                 when others =>
                   (case Below (3) is
                       when 0      => Wake_Command,
                       when 1      => (Op_Delay, 0, 0, 1),
                       when others => (Op_Advance, 0, 0, 1)));
   end Refused_Before_Start;

   function Refused_After_Start (M : State; Likes : Taste) return Command is
      Op        : constant Natural := Between (Op_Open, Op_Done);
      Taking_Op : constant Natural := Some_Taking_Op;
      Missing   : constant Natural := Pick (M, Is_Undeclared'Access);
      Too_Low   : constant Natural := Pick (M, Is_Too_Low'Access);
      Both      : constant Natural := Pick (M, Is_Waited_And_Low'Access);
      Reached   : constant Natural := Pick (M, Is_Waited_And_Open'Access);
   begin
      if Both > 0 and then Chance (30) then
         return (Op_Entry, Both, 0, 0);  --  the state is rare: use it
      end if;
      case Below (16) is
         when 0 =>
            return Set_Up_Again (M, Likes);
         when 1 =>
            return Wrong_Operand;
         when 2 =>
            return Aimed (M, Likes, Op, Missing);
         when 3 .. 7 =>
            return Wrong_Place (M, Likes);
         when 8 .. 10 =>
            return Aimed (M, Likes, Taking_Op, Too_Low);
         when 11 .. 14 =>
            return Aimed (M, Likes, Op_Entry, Reached);
         when others =>
            return (if M.Clock > Ticks'Last / 2 or else Chance (20)
                    then Past_The_Clock (M)
                    else Wrong_Place (M, Likes));
      end case;
   end Refused_After_Start;

   function Refused_Command (M : State; Likes : Taste) return Command is
     (Or_Failing (if M.Started then Refused_After_Start (M, Likes)
                  else Refused_Before_Start (M, Likes)));

   --  0 .. 2^64-1, as often short as long.
   function Some_Value (M : State) return Ticks is
      Bits  : constant Natural := Below (64);
      Small : constant Ticks := Ticks (Below (3));
   begin
      return (case Below (4) is
                 when 0      => Ticks (Below (100)),
                 when 1      => M.Clock + Small,
                 when 2      => Ticks'Last - Small,
                 when others => Any / 2 ** Bits);
   end Some_Value;

   function Random_Command (M : State) return Command is
      Op : constant Natural := Between (Op_Create, Op_Done);
      A  : constant Natural := Some_Operand;
      B  : constant Natural := Some_Operand;
   begin
      return Or_Failing
        (case Op is
            when Op_Delay | Op_Advance => (Op, 0, 0, Some_Value (M)),
            when Op_Start | Op_Wake    => (Op, 0, 0, 0),
            when Op_Open | Op_Closef   => (Op, A, 0, 0),
            when others                => (Op, A, B, 0));
   end Random_Command;

end Steering;
