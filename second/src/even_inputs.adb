with Command_Text;  use Command_Text;
with Decimals;      use Decimals;
with Fresh_Numbers; use Fresh_Numbers;
with Generator;     use Generator;
with Machine;       use Machine;
with Scripts;       use Scripts;
with Steering;      use Steering;

package body Even_Inputs is

   --  As in Steering, no expression below draws twice: the order would be
   --  open.

   -----------
   -- Seeds --
   -----------

   --  The seed whose draw is Drawn.  Each of the three shifts of a draw is
   --  undone: Y = X xor (X shifted) has X = Y xor (X shifted), and each round
   --  makes more bits of X right, from the end that is not shifted.
   function Before (Drawn : Word_32) return Word_32 is
      Y : Word_32 := Drawn;
      X : Word_32;
   begin
      for Shift in 1 .. 3 loop
         X := Y;
         for Round in 1 .. 7 loop
            X := Y xor (case Shift is
                           when 1      => X * 2 ** 5,
                           when 2      => X / 2 ** 17,
                           when others => X * 2 ** 13);
         end loop;
         Y := X;
      end loop;
      return Y;
   end Before;

   --  One of the draws that some choice draws again, or the last it keeps.
   function Some_High return Word_32 is
      Reach : constant Positive :=
        (case Below (5) is
            when 0      => 1,
            when 1      => 5,
            when 2      => 120,
            when 3      => 800,
            when others => 1_000_001);
   begin
      return Word_32'Last - Word_32 (Below (Reach));
   end Some_High;

   --  Such a draw stands among the first five behind it.
   function Seed_Before_High return Word_32 is
      Seed : Word_32 := Some_High;
   begin
      for I in 1 .. Between (1, 5) loop
         Seed := Before (Seed);
      end loop;
      return Seed;
   end Seed_Before_High;

   function Some_Seed return Word_32 is
     (case Below (10) is
         when 0      => 1,
         when 1      => Word_32'Last,
         when 2      => 2 ** 31,
         when 3 .. 7 => Seed_Before_High,
         when others => Word_32 (1 + Any mod 4_294_967_295));

   ----------
   -- Rows --
   ----------

   function Decimal (N : Word_32) return String is (Image (Ticks (N)));

   function Some_Span return Natural is
     (case Below (8) is
         when 0      => 1,
         when 1      => 1_000_000,
         when 2 | 3  => Between (900_000, 1_000_000),
         when 4      => Between (1, 10),
         when others => Between (1, 1_000_000));

   --  Wake's is the second, and not 0.
   function Some_Weights return Weight_Set is
      Style   : constant Natural := Below (3);
      Weights : Weight_Set;
   begin
      for Op in Drawn_Op loop
         Weights (Op) :=
           (case Style is
               when 0      => 10,
               when 1      => 100 * Word_32 (Below (2)),
               when others => Word_32 (Below (101)));
      end loop;
      if Weights (Op_Wake) = 0 or else Chance (50) then
         Weights (Op_Wake) := Word_32 (Between (1, 10));
      end if;
      return Weights;
   end Some_Weights;

   --  17, 18, or both: the order is seen.
   procedure Spoil (Seed : in out Word_32; P : in out Profile) is
      Choice : constant Natural := Below (5);
      Op     : constant Drawn_Op := Between (Op_Delay, Op_Done);
   begin
      if Choice in 0 | 4 then
         Seed := 0;
      end if;
      case Choice is
         when 1 | 4  => P.Span := 0;
         when 2      => P.Span := 1_000_001;
         when 3      => P.Weights (Op) := 101;
         when others => null;
      end case;
   end Spoil;

   --  Now and then what is drawn is carried out.
   procedure Emit_Draw is
      Seed    : Word_32 := Some_Seed;
      P       : Profile;
      Number  : Code;
      C       : Command;
      Ignored : Natural;
   begin
      P.Span    := Word_32 (Some_Span);
      P.Weights := Some_Weights;
      if Chance (2) then
         Spoil (Seed, P);
      end if;
      Emit ("draw " & Decimal (Seed) & " " & Decimal (P.Span)
            & " " & Decimal (P.Weights (Op_Delay))
            & " " & Decimal (P.Weights (Op_Wake))
            & " " & Decimal (P.Weights (Op_Advance))
            & " " & Decimal (P.Weights (Op_Open))
            & " " & Decimal (P.Weights (Op_Closep))
            & " " & Decimal (P.Weights (Op_Closef))
            & " " & Decimal (P.Weights (Op_Entry))
            & " " & Decimal (P.Weights (Op_Done)));
      if Chance (20) then
         Draw (2, Kernel, P, Seed, Number, C, Ignored);
         if Number = Accepted then
            Emit (Image (C));
         end if;
      end if;
   end Emit_Draw;

   --  Below numbers of all sizes; from 2^31 on a choice draws again often.
   procedure Emit_Choice is
      Seed : constant Word_32 := Some_Seed;
      Bits : constant Natural := Below (32);
      N    : constant Word_32 := Word_32 (Any mod 2 ** 32);
      Size : constant Natural := Below (3);
   begin
      Emit ("below " & Decimal (Seed) & " "
            & Decimal (Word_32'Max
                         (1,
                          (case Size is
                              when 0      => N / 2 ** Bits,
                              when 1      => 2 ** 31 + N / 16,
                              when others => 2 ** Bits))));
   end Emit_Choice;

   ----------
   -- Make --
   ----------

   --  Commands that are accepted, and no others.
   procedure Emit_Accepted (C : Command) is
      Copy   : State := Kernel;
      Result : Answer;
   begin
      Step (Copy, C, Result);
      if Result.Number = Accepted then
         Emit (Image (C));
      end if;
   end Emit_Accepted;

   procedure Emit_Machine (Likes : Taste) is
      Tasks   : constant Natural := Below (32);
      Objects : constant Natural := Below (8);
   begin
      Emit ("fresh");
      Kernel := (others => <>);
      for I in 1 .. Tasks loop
         Emit_Accepted (New_Task (Kernel, Likes));
      end loop;
      for I in 1 .. Objects loop
         Emit_Accepted (New_Object (Kernel, Likes));
      end loop;
      if Chance (10) then
         Emit_Draw;  --  Early
      end if;
      if not Kernel.Started then
         Emit ("start");
      end if;
      if Chance (15) then
         Emit_Accepted ((Op_Advance, 0, 0, Ticks'Last - Any mod 2_000_000));
      end if;
   end Emit_Machine;

   procedure Make is
      Likes : constant Taste := Some_Taste;
   begin
      for Machine_Number in 1 .. Between (1, 4) loop
         Emit_Machine (Likes);
         for I in 1 .. Between (1, 120) loop
            for Steps in 1 .. Below (4) loop
               Emit_Accepted (Accepted_Command (Kernel, Likes));
            end loop;
            Emit_Draw;
            if Chance (20) then
               Emit_Choice;
            end if;
         end loop;
      end loop;
      Finish;
   end Make;

end Even_Inputs;
