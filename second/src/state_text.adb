with Byte_IO;  use Byte_IO;
with Decimals; use Decimals;

package body State_Text is

   --  0 is nobody but in the ready line.
   subtype Real_Task is Task_Id range 1 .. Task_Id'Last;

   procedure Put_Number (Number : Ticks) is
   begin
      Put (" " & Image (Number));
   end Put_Number;

   procedure Put_Word (Word : String; Number : Ticks) is
   begin
      Put (" " & Word);
      Put_Number (Number);
   end Put_Word;

   procedure Put_Pair (T : Task_Id; Number : Ticks) is
   begin
      Put_Number (Ticks (T));
      Put ("/" & Image (Number));
   end Put_Pair;

   procedure End_Line is
   begin
      Put_Line ("");
   end End_Line;

   -----------
   -- Lines --
   -----------

   procedure Take_Out (M : in out State; T : Real_Task) is
   begin
      M.Tasks (T) := (Stands => Absent, others => <>);
   end Take_Out;

   --  "the ready line, the running task first and idle last".  It is there
   --  before Start too, when nobody runs: a copy that is started has the same
   --  front, and runs it.
   procedure Put_Ready (M : State) is
      Left  : State := M;
      Front : Task_Id;
   begin
      Put (" ready");
      Left.Started := True;
      loop
         Front := Running (Left);
         Put_Pair (Front, Ticks (Active (Left, Front)));
         exit when Front = Idle;
         Take_Out (Left, Front);
      end loop;
      End_Line;
   end Put_Ready;

   --  "the delay line, the soonest first"
   procedure Put_Delay (M : State) is
      Left  : State   := M;
      First : Task_Id := First_Delayed (M);
   begin
      Put (" delay");
      while First /= Idle loop
         Put_Pair (First, Left.Tasks (First).Time);
         Take_Out (Left, First);
         First := First_Delayed (Left);
      end loop;
      End_Line;
   end Put_Delay;

   --------------------
   -- By task number --
   --------------------

   --  "every created task with its base priority"
   procedure Put_Tasks (M : State) is
   begin
      Put (" tasks");
      for T in Real_Task loop
         if M.Tasks (T).Stands /= Absent then
            Put_Pair (T, Ticks (M.Tasks (T).Base));
         end if;
      end loop;
      End_Line;
   end Put_Tasks;

   --  "the tasks with an exception that no answer has shown yet"
   procedure Put_Pending (M : State) is
   begin
      Put (" pending");
      for T in Real_Task loop
         if M.Owed (T) then
            Put_Number (Ticks (T));
         end if;
      end loop;
      End_Line;
   end Put_Pending;

   -------------
   -- Objects --
   -------------

   --  "1 for a procedure or a function, 2 for an entry, 0 where nobody does"
   function Way_Number (M : State; Who : Task_Id) return Ticks is
     (if Who = Idle then 0
      else (case M.Tasks (Who).Way is when By_Open => 1, when By_Entry => 2));

   procedure Put_Object (M : State; Object : Real_Object) is
      Has : constant Task_Id := Holder (M, Object);
   begin
      Put_Word ("object", Ticks (Object));
      Put_Word ("ceiling", Ticks (M.Objects (Object).Ceiling));
      Put_Word ("holder", Ticks (Has));
      Put_Word ("way", Way_Number (M, Has));
      Put (" waiters");
      if Waiter (M, Object) /= Idle then
         Put_Number (Ticks (Waiter (M, Object)));
      end if;
      End_Line;
   end Put_Object;

   ----------------------
   -- The chip's queue --
   ----------------------

   procedure Put_Entered
     (Word : String;
      Q    : Chip_Queue.Queue;
      Pid  : Task_Id;
      E    : Chip_Queue.Entered) is
   begin
      Put (" " & Word);
      Put_Word ("task", Ticks (Pid));
      Put_Word ("time", E.Time);
      Put_Word ("age", Ticks (Chip_Queue.Age (Q, E)));
      End_Line;
   end Put_Entered;

   procedure Put_Queue (Q : Chip_Queue.Queue) is
   begin
      Put_Entered ("registers", Q, Q.PidDQ, Q.T);
      for Pid in Real_Task loop
         if Q.DQ_RAM (Pid).Time > 0 then
            Put_Entered ("table", Q, Pid, Q.DQ_RAM (Pid));
         end if;
      end loop;
   end Put_Queue;

   procedure Put_State (M : State; Failed : Boolean; Q : Chip_Queue.Queue) is
   begin
      Put_Word ("started", Boolean'Pos (M.Started));
      Put_Word ("exception", Boolean'Pos (Failed));
      End_Line;
      Put_Tasks (M);
      Put_Ready (M);
      Put_Delay (M);
      Put_Pending (M);
      for Object in Real_Object loop
         if M.Objects (Object).Declared then
            Put_Object (M, Object);
         end if;
      end loop;
      Put_Queue (Q);
   end Put_State;

end State_Text;
