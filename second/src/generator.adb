package body Generator is

   --  "A draw sets x to x xor (x shifted left 13), then xor (shifted right
   --  17), then xor (shifted left 5), in 32 bits ..., and yields x."  In a
   --  modular type a product loses the high bits and a quotient the low ones,
   --  as the shifts do.
   procedure Advance (Seed : in out Word_32; Drawn : out Word_32) is
   begin
      Seed := Seed xor (Seed * 2 ** 13);
      Seed := Seed xor (Seed / 2 ** 17);
      Seed := Seed xor (Seed * 2 ** 5);
      Drawn := Seed;
   end Advance;

   --  "A choice below n now takes v = draw - 1 and L = the largest multiple of
   --  n not above 4294967295; if v is below L the choice is v mod n, otherwise
   --  it draws again, at most 8 draws in all, and the eighth always gives
   --  v mod n."
   procedure Choose_Evenly
     (N      : Word_32;
      Seed   : in out Word_32;
      Choice : out Word_32;
      Spent  : out Positive)
   is
      L     : constant Word_32 := Word_32'Last / N * N;
      Drawn : Word_32;
   begin
      Spent := 1;
      loop
         Advance (Seed, Drawn);  --  never 0, for the seed is not
         exit when Drawn - 1 < L or else Spent = Most_Draws;
         Spent := Spent + 1;
      end loop;
      Choice := (Drawn - 1) mod N;
   end Choose_Evenly;

   --  A choice below N, by either edition.  What it spends is added up.
   procedure Choose
     (By     : Edition;
      N      : Word_32;
      Seed   : in out Word_32;
      Choice : out Word_32;
      Spent  : in out Natural)
   is
      Drawn : Word_32;
      Draws : Positive := 1;
   begin
      case By is
         when 1 =>
            Advance (Seed, Drawn);
            Choice := Drawn mod N;
         when 2 =>
            Choose_Evenly (N, Seed, Choice, Draws);
      end case;
      Spent := Spent + Draws;
   end Choose;

   --  In edition 1 "three draws d1, d2, d3 are made for each command, used or
   --  not"; in edition 2 "an operand not needed spends one draw", and so does
   --  a barrier (READINGS-02, 4).
   procedure Pass_By (Seed : in out Word_32; Spent : in out Natural) is
      Unused : Word_32;
   begin
      Advance (Seed, Unused);
      Spent := Spent + 1;
   end Pass_By;

   function Is_Bad (P : Profile) return Boolean is
     (P.Span not in 1 .. 1_000_000
      or else (for some W of P.Weights => W > 100)
      or else P.Weights (Op_Wake) = 0);

   --  "eligible (declared, ceiling at least the base, not held)"
   function Is_Eligible (M : State; Object : Real_Object) return Boolean is
     (M.Objects (Object).Declared
      and then M.Objects (Object).Ceiling >= M.Tasks (Running (M)).Base
      and then Holder (M, Object) = Idle);

   function Eligible_Count (M : State) return Natural is
      Count : Natural := 0;
   begin
      for Object in Real_Object loop
         if Is_Eligible (M, Object) then
            Count := Count + 1;
         end if;
      end loop;
      return Count;
   end Eligible_Count;

   --  The eligible object with that number, "counted from 0 upward".
   function Eligible (M : State; Number : Natural) return Real_Object is
      To_Pass : Natural := Number;
   begin
      for Object in Real_Object loop
         if Is_Eligible (M, Object) then
            if To_Pass = 0 then
               return Object;
            end if;
            To_Pass := To_Pass - 1;
         end if;
      end loop;
      raise Program_Error;  --  there are not so many: never asked
   end Eligible;

   --  "clock + span is at most 2^64-1", without a wrap (READINGS 16)
   function Has_Time (M : State; P : Profile) return Boolean is
     (Ticks (P.Span) <= Ticks'Last - M.Clock);

   --  "Legal kinds: wake always; delay (runner not idle, holding nothing)
   --  and advance, both only if clock + span is at most 2^64-1; open and
   --  entry when the runner is not idle, holds nothing and some object is
   --  eligible ...; closep and closef inside an open; done inside an entry."
   function Is_Legal (M : State; P : Profile; Op : Drawn_Op) return Boolean is
      Runner : constant Task_Id := Running (M);
      Inside : constant Boolean := Object_Held (M, Runner) /= Null_Object;
      Free   : constant Boolean := Runner /= Idle and not Inside;
   begin
      return
        (case Op is
            when Op_Delay              => Free and then Has_Time (M, P),
            when Op_Wake               => True,
            when Op_Advance            => Has_Time (M, P),
            when Op_Open | Op_Entry    =>
              Free and then Eligible_Count (M) > 0,
            when Op_Closep | Op_Closef =>
              Inside and then M.Tasks (Runner).Way = By_Open,
            when Op_Done               =>
              Inside and then M.Tasks (Runner).Way = By_Entry);
   end Is_Legal;

   --  "S is the sum of the legal weights."  Wake is legal and weighs
   --  something, so S is above 0.
   function Sum_Of_Legal (M : State; P : Profile) return Word_32 is
      Sum : Word_32 := 0;
   begin
      for Op in Drawn_Op loop
         if Is_Legal (M, P, Op) then
            Sum := Sum + P.Weights (Op);
         end if;
      end loop;
      return Sum;
   end Sum_Of_Legal;

   --  "The kind is the first whose running sum exceeds d1 mod S", which is
   --  the choice of edition 1.  A choice is below S, so such a kind is found.
   function Kind (M : State; P : Profile; Choice : Word_32) return Drawn_Op is
      Reached : Word_32 := 0;
   begin
      for Op in Drawn_Op loop
         if Is_Legal (M, P, Op) then
            Reached := Reached + P.Weights (Op);
            if Reached > Choice then
               return Op;
            end if;
         end if;
      end loop;
      raise Program_Error;
   end Kind;

   --  "Operands: delay clock + d2 mod (span+1); advance 1 + d2 mod span; open
   --  and entry the eligible object number d2 mod (their count), ...; closing
   --  commands the held object."  What the choice is below; 0 where none is
   --  needed, "the closing kinds' operand included" (READINGS-02, 4).
   function Operand_Limit
     (M : State; P : Profile; Op : Drawn_Op) return Word_32 is
     (case Op is
         when Op_Delay                        => P.Span + 1,
         when Op_Advance                      => P.Span,
         when Op_Open | Op_Entry              => Word_32 (Eligible_Count (M)),
         when Op_Wake
            | Op_Closep | Op_Closef | Op_Done => 0);

   --  "closing commands the held object"
   function Held_By_Runner (M : State) return Natural is
     (Natural (Object_Held (M, Running (M))));

   --  The command with the operand that the choice stands for, and barrier 0.
   --  "All other operands are 0."
   function With_Operand
     (M : State; Op : Drawn_Op; Choice : Word_32) return Command
   is
      C : Command := (Op => Op, others => <>);
   begin
      case Op is
         when Op_Delay =>
            C.Value := M.Clock + Ticks (Choice);
         when Op_Wake =>
            null;
         when Op_Advance =>
            C.Value := 1 + Ticks (Choice);
         when Op_Open | Op_Entry =>
            C.A := Natural (Eligible (M, Natural (Choice)));
         when Op_Closep | Op_Closef | Op_Done =>
            C.A := Held_By_Runner (M);
      end case;
      return C;
   end With_Operand;

   --  "The barrier of closep and entry is d3 mod 2, but 1 for an entry whose
   --  object has a waiter."  Of done: "The generator sets it to d3 mod 2"
   --  (change request 2).
   function Is_Forced (M : State; C : Command) return Boolean is
     (C.Op = Op_Entry and then Waiter (M, Object_Id (C.A)) /= Idle);

   --  Whether a barrier is chosen.  "An entry whose object has a waiter gets
   --  barrier 1: its barrier is not needed, one plain draw" (READINGS-02, 4).
   function Has_Choice_Of_Barrier (M : State; C : Command) return Boolean is
     (C.Op in Op_Closep | Op_Entry | Op_Done and then not Is_Forced (M, C));

   --  "Kind, operand and barrier are each one such choice" (change request 4),
   --  made one after another: each draw goes on from the seed before it.
   procedure Draw_Accepted
     (By    : Edition;
      M     : State;
      P     : Profile;
      Seed  : in out Word_32;
      Drawn : out Command;
      Spent : in out Natural)
   is
      Op     : Drawn_Op;
      Choice : Word_32;
   begin
      Choose (By, Sum_Of_Legal (M, P), Seed, Choice, Spent);
      Op := Kind (M, P, Choice);
      if Operand_Limit (M, P, Op) > 0 then
         Choose (By, Operand_Limit (M, P, Op), Seed, Choice, Spent);
      else
         Pass_By (Seed, Spent);
      end if;
      Drawn := With_Operand (M, Op, Choice);
      if Has_Choice_Of_Barrier (M, Drawn) then
         Choose (By, 2, Seed, Choice, Spent);
         Drawn.B := Natural (Choice);
      else
         Pass_By (Seed, Spent);
         Drawn.B := (if Is_Forced (M, Drawn) then 1 else 0);
      end if;
   end Draw_Accepted;

   procedure Draw
     (By     : Edition;
      M      : State;
      P      : Profile;
      Seed   : in out Word_32;
      Number : out Code;
      Drawn  : out Command;
      Spent  : out Natural) is
   begin
      Drawn := (others => <>);
      Spent := 0;
      if Seed = 0 then
         Number := Bad_Seed;
      elsif Is_Bad (P) then
         Number := Bad_Profile;
      elsif not M.Started then
         Number := Early;
      else
         Number := Accepted;
         Draw_Accepted (By, M, P, Seed, Drawn, Spent);
      end if;
   end Draw;

   procedure Draw
     (M      : State;
      P      : Profile;
      Seed   : in out Word_32;
      Number : out Code;
      Drawn  : out Command)
   is
      Spent : Natural;
   begin
      Draw (1, M, P, Seed, Number, Drawn, Spent);
      pragma Assert (Spent in 0 | 3);
   end Draw;

end Generator;
