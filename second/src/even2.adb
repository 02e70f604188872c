--  The stored run of edition 2, the second time: 100,000 commands drawn by
--  change request 4 and carried out at once, a quarter of them from each of
--  four seeds.  It reads nothing.  What it prints stands in second/README.md.

with Byte_IO;   use Byte_IO;
with Generator; use Generator;
with Machine;   use Machine;

procedure Even2 is

   Draws      : constant := 25_000;  --  from each seed
   Row_Length : constant := 5_000;  --  draws from one row to the next

   type Command_List is array (Positive range <>) of Command;

   Setup : constant Command_List :=
     ((Op_Create, 1, 3, 0),
      (Op_Create, 2, 5, 0),
      (Op_Create, 3, 3, 0),
      (Op_Create, 4, 9, 0),
      (Op_Create, 5, 1, 0),
      (Op_Create, 6, 15, 0),
      (Op_Create, 7, 7, 0),
      (Op_Create, 31, 5, 0),
      (Op_Object, 1, 4, 0),
      (Op_Object, 2, 9, 0),
      (Op_Object, 3, 15, 0),
      (Op_Object, 4, 5, 0),
      (Op_Object, 7, 12, 0),
      (Op_Start, 0, 0, 0));

   --  4294967295 mod 1000001 is 963001 and mod 1000000 is 967295, so about one
   --  operand in 4400 of a delay or an advance is drawn again.
   Menu : constant Profile :=
     (Span    => 1_000_000,
      Weights => (10, 30, 20, 10, 10, 10, 20, 10));

   --  One block: a machine, what its draws have spent, and the sum of all
   --  that was said.
   type Block is record
      Kernel : State;
      Seed   : Word_32;
      Spent  : Ticks   := 0;
      Total  : Word_32 := 0;
   end record;

   procedure Mix (B : in out Block; Number : Ticks) is
   begin
      B.Total := B.Total * 31
                 + Word_32 (Number mod 2 ** 32) + Word_32 (Number / 2 ** 32);
   end Mix;

   procedure Carry_Out (B : in out Block; C : Command) is
      Result : Answer;
   begin
      Step (B.Kernel, C, Result);
      pragma Assert (Result.Number = Accepted);
      Mix (B, Ticks (C.Op));
      Mix (B, Ticks (C.A));
      Mix (B, Ticks (C.B));
      Mix (B, C.Value);
      Mix (B, Ticks (Result.Number));
      Mix (B, Ticks (Result.Running));
      Mix (B, Ticks (Result.Released));
   end Carry_Out;

   procedure Draw_One (B : in out Block) is
      Number : Code;
      C      : Command;
      Spent  : Natural;
   begin
      Draw (2, B.Kernel, Menu, B.Seed, Number, C, Spent);
      Mix (B, Ticks (Number));
      Mix (B, Ticks (Spent));
      B.Spent := B.Spent + Ticks (Spent);
      Carry_Out (B, C);
   end Draw_One;

   procedure Report (B : Block; Count : Ticks) is
   begin
      Put_Numbers ((Count,
                    Ticks (Running (B.Kernel)),
                    B.Kernel.Clock,
                    Ticks (B.Seed),
                    B.Spent,
                    Ticks (B.Total)));
   end Report;

   procedure Run (Seed : Word_32) is
      B : Block := (Seed => Seed, others => <>);
   begin
      for C of Setup loop
         Carry_Out (B, C);
      end loop;
      Report (B, 0);
      for Count in 1 .. Draws loop
         Draw_One (B);
         if Count mod Row_Length = 0 then
            Report (B, Ticks (Count));
         end if;
      end loop;
   end Run;

begin
   Put_Line ("draws running clock seed spent sum");
   Run (1);
   Run (2_147_483_649);
   Run (2_159_691_842);
   Run (4_294_967_295);
   Flush;
end Even2;
