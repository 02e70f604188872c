with Ada.Containers;
with Byte_IO;
with Fresh_Numbers; use Fresh_Numbers;
with Steering;      use Steering;

package body Tape_Inputs is

   --  As in Steering, no expression below draws twice: the order would be
   --  open.

   Tape   : Octet_Vectors.Vector;
   Kernel : State;  --  after the commands so far, by the rules

   function Some_Octet return Octet is (Octet (Below (256)));

   ----------------
   -- The choice --
   ----------------

   function Some_Kind return Kind is
     (case Below (100) is
         when 0 .. 15  => Right,
         when 16 .. 20 => Odd,
         when 21 .. 38 => Spoilt,
         when 39 .. 42 => Twice,
         when 43 .. 48 => Unseen,
         when 49 .. 51 => Lost,
         when 52 .. 61 => Header,
         when 62 .. 73 => Damaged,
         when 74 .. 77 => Spoilt_First,
         when 78 .. 80 => Damaged_First,
         when 81 .. 84 => Both,
         when 85 .. 89 => Cut,
         when 90 .. 92 => Appended,
         when 93 .. 94 => Shifted,
         when 95 .. 97 => Flipped,
         when 98       => Noise,
         when others   => Empty);

   function Some_Length return Natural is
     (case Below (50) is
         when 0 | 1    => 0,
         when 2 .. 5   => Between (1, 6),
         when 6 .. 34  => Between (7, 80),
         when 35 .. 47 => Between (81, 400),
         when others   => Between (1000, 4000));

   -----------------
   -- The records --
   -----------------

   procedure Add (Bytes : Octets) is
   begin
      for Byte of Bytes loop
         Tape.Append (Byte);
      end loop;
   end Add;

   --  A command with the rules' answer.
   procedure Add_Right (C : Command) is
      Result : Answer;
   begin
      Step (Kernel, C, Result);
      Add (Bytes_Of (Fields_Of (C, Result)));
   end Add_Right;

   function Record_Count return Natural is
     (Natural (Tape.Length) / Record_Length);

   function Bytes_At (Number : Natural) return Record_Bytes is
      Bytes : Record_Bytes;
   begin
      for I in Bytes'Range loop
         Bytes (I) := Tape (Number * Record_Length + I);
      end loop;
      return Bytes;
   end Bytes_At;

   procedure Put_At (Number : Natural; Bytes : Record_Bytes) is
   begin
      for I in Bytes'Range loop
         Tape (Number * Record_Length + I) := Bytes (I);
      end loop;
   end Put_At;

   --  Some command record.
   function Some_Number return Positive is (Between (1, Record_Count - 1));

   ------------------
   -- The commands --
   ------------------

   --  What goes wrong with them, in percent; the answers stay the rules'.
   type Mischief is record
      Refused : Natural := 0;
      Random  : Natural := 0;
      Unused  : Natural := 0;  --  an operand that the op has no place for
      Wild    : Natural := 0;  --  any operands at all
   end record;

   function Some_Mischief (What : Kind) return Mischief is
     (if What = Odd then (Refused => 5, Random => 5, Unused => 25, Wild => 10)
      else (case Below (5) is
               when 0      => (others => 0),
               when 1      => (Refused => 30, others => 0),
               when 2      => (Refused => 10, Random => 5, Unused => 5,
                               Wild => 2),
               when others => (Refused => 8, Random => 1, Unused => 1,
                               Wild => 0)));

   --  Not 0; the low bytes often are, or the high ones.
   function Some_Value return Ticks is
      Bits : constant Natural := Below (64);
   begin
      return (case Below (3) is
                 when 0      => Ticks (Between (1, 255)),
                 when 1      => 2 ** Bits,
                 when others => Ticks'Last / 2 ** Bits);
   end Some_Value;

   function With_Unused (C : Command) return Command is
      Small  : constant Natural := Between (1, 255);
      Value  : constant Ticks := Some_Value;
      Choice : constant Natural := Below (3);
   begin
      return (case Matching (C.Op) is
                 when Op_Start | Op_Wake    =>
                   (case Choice is
                       when 0      => (C.Op, Small, 0, 0),
                       when 1      => (C.Op, 0, Small, 0),
                       when others => (C.Op, 0, 0, Value)),
                 when Op_Delay | Op_Advance =>
                   (case Choice is
                       when 0      => (C.Op, Small, 0, C.Value),
                       when others => (C.Op, 0, Small, C.Value)),
                 when Op_Open | Op_Closef   =>
                   (case Choice is
                       when 0      => (C.Op, C.A, 0, Value),
                       when others => (C.Op, C.A, Small, 0)),
                 when others                => (C.Op, C.A, C.B, Value));
   end With_Unused;

   function Wild_Command return Command is
      Op    : constant Natural := Between (Op_Create, Op_Done);
      A     : constant Natural := Below (256);
      B     : constant Natural := Below (256);
      Value : constant Ticks := Any;
   begin
      return Or_Failing ((Op, A, B, Value));
   end Wild_Command;

   --  Operands are bytes here; in text a few made to be refused are larger.
   function In_Bytes (C : Command) return Command is
     ((C.Op, Natural'Min (C.A, 255), Natural'Min (C.B, 255), C.Value));

   function Troubled
     (C : Command; Likes : Taste; Harm : Mischief) return Command
   is
      Point : Integer := Below (100);
   begin
      if Point < Harm.Refused then
         return In_Bytes (Refused_Command (Kernel, Likes));
      end if;
      Point := Point - Harm.Refused;
      if Point < Harm.Random then
         return Random_Command (Kernel);
      end if;
      Point := Point - Harm.Random;
      if Point < Harm.Unused then
         return With_Unused (C);
      end if;
      Point := Point - Harm.Unused;
      return (if Point < Harm.Wild then Wild_Command else C);
   end Troubled;

   --  On a long tape the clock must not leap to its end, nor a task sleep
   --  until then: what follows would be dull.
   Far : constant := 1_000_000;

   function Calmed (C : Command) return Command is
     (if C.Op = Op_Delay and then C.Value > Kernel.Clock
        and then C.Value - Kernel.Clock > Far
      then (Op_Delay, 0, 0, Kernel.Clock + 1)
      elsif C.Op = Op_Advance and then C.Value > Far
        and then C.Value <= Ticks'Last - Kernel.Clock
      then (Op_Advance, 0, 0, 1)
      else C);

   ---------------------
   -- The right tapes --
   ---------------------

   Long : constant := 5000;

   --  How many tasks and objects a tape of that length may set up.
   type Setup is record
      Tasks, Objects : Natural;
   end record;

   function Some_Setup (Length : Natural) return Setup is
      Tasks   : constant Natural := Between (1, 31);
      Objects : constant Natural := Below (8);
   begin
      return (if Length > Long then (31, 7)
              else (Natural'Min (Tasks, 1 + Length / 4),
                    Natural'Min (Objects, (Length + 3) / 8)));
   end Some_Setup;

   function Next_Command
     (Left : in out Setup; Likes : Taste) return Command is
   begin
      if Kernel.Started then
         return Accepted_Command (Kernel, Likes);
      elsif Left = (0, 0) then
         return (Op => Op_Start, others => <>);
      elsif Below (Left.Tasks + Left.Objects) < Left.Tasks then
         Left.Tasks := Left.Tasks - 1;
         return New_Task (Kernel, Likes);
      else
         Left.Objects := Left.Objects - 1;
         return New_Object (Kernel, Likes);
      end if;
   end Next_Command;

   --  Now and then a tape that never starts, or starts at once: all the rest
   --  is Early or Late.
   procedure Fill (Length : Natural; Likes : Taste; Harm : Mischief) is
      Left        : Setup := Some_Setup (Length);
      Never_Start : constant Boolean := Length < Long and then Chance (2);
      C           : Command;
   begin
      if Length < Long and then Chance (2) then
         Left := (0, 0);
      end if;
      for I in 1 .. Length loop
         C := Next_Command (Left, Likes);
         if C.Op = Op_Start and then Never_Start then
            C := Random_Command (Kernel);
         end if;
         C := Troubled (C, Likes, Harm);
         Add_Right (if Length > Long then Calmed (C) else C);
      end loop;
   end Fill;

   --  A seed at a limit more often than between the limits.
   function Some_Seed return Ticks is
     (case Below (6) is
         when 0      => 1,
         when 1      => 4_294_967_295,
         when 2      => 2_147_483_648,
         when others => 1 + Any mod 4_294_967_295);

   procedure Make_Right (What : Kind; Length : Natural) is
      Likes : constant Taste := Some_Taste;
      Harm  : constant Mischief := Some_Mischief (What);
   begin
      Add (Bytes_Of (Tapes.Header (Some_Seed)));
      Fill (Length, Likes, Harm);
   end Make_Right;

   -------------------
   -- Wrong answers --
   -------------------

   --  Another number below Limit, at times its neighbour or 0; Limit is even.
   function Another (Old : Octet; Limit : Octet) return Octet is
      Choice : constant Natural := Below (4);
      Step   : constant Natural := Between (1, Natural (Limit) - 1);
   begin
      return (if Choice = 0 then Old xor 1
              elsif Choice = 1 and then Old /= 0 then 0
              else Octet ((Natural (Old) + Step) mod Natural (Limit)));
   end Another;

   --  One, two or all three parts of a record's answer are changed.
   procedure Spoil (Number : Positive) is
      Choice : constant Natural := Below (10);
      F      : Fields := Fields_Of (Bytes_At (Number));
   begin
      if Choice in 0 | 1 | 6 | 7 | 9 then
         F.Number := Another (F.Number, 14);
      end if;
      if Choice in 2 | 3 | 6 | 8 | 9 then
         F.Running := Another (F.Running, 32);
      end if;
      if Choice in 4 | 5 | 7 | 8 | 9 then
         F.Released := Another (F.Released, 32);
      end if;
      Put_At (Number, Bytes_Of (F));
   end Spoil;

   --  A command gets an operand that its op has no place for and keeps its
   --  answer, as from a simulator that does not look there.
   procedure Put_Unseen (Number : Positive) is
      F : constant Fields := Fields_Of (Bytes_At (Number));
      C : constant Command := With_Unused (Command_Of (F));
   begin
      Put_At (Number, Bytes_Of (Fields_Of (C, Answer_Of (F))));
   end Put_Unseen;

   --  A record is dropped, doubled, or changes places with the one before.
   procedure Misplace (Number : Positive) is
      Bytes : constant Record_Bytes := Bytes_At (Number);
      At_It : constant Natural := Number * Record_Length;
   begin
      case Below (3) is
         when 0      => Tape.Delete (At_It, Record_Length);
         when 1      => Tape.Insert (At_It, 0, Record_Length);
                        Put_At (Number, Bytes);
         when others =>
            if Number > 1 then
               Put_At (Number, Bytes_At (Number - 1));
               Put_At (Number - 1, Bytes);
            end if;
      end case;
   end Misplace;

   ------------
   -- Damage --
   ------------

   --  Low, or anything above.
   function At_Least (Low : Octet) return Octet is
     (if Chance (50) then Low
      else Octet (Between (Natural (Low), 255)));

   function Damaged (Bytes, First : Record_Bytes) return Record_Bytes is
      Result : Record_Bytes := Bytes;
      Change : constant Octet := Octet (Between (1, 255));
   begin
      case Below (12) is
         when 0      => Result (0) := Bytes (0) xor Change;
         when 1      => Result (1) := Bytes (1) xor Change;
         when 2      => Result (2) := 0;
         when 3 | 4  => Result (2) := At_Least (16);
         when 5      => Result (2) := 255;
         when 6 | 7  => Result (5) := At_Least (14);
         when 8      => Result (6) := At_Least (32);
         when 9      => Result (7) := At_Least (32);
         when 10     => Result := First;
         when others => Result := (others => 0);
      end case;
      return Result;
   end Damaged;

   procedure Damage (Number : Positive) is
   begin
      Put_At (Number, Damaged (Bytes_At (Number), Bytes_At (0)));
   end Damage;

   --  Value is no seed.
   function Some_Bad_Seed return Ticks is
      Bits : constant Natural := Between (32, 63);
   begin
      return (case Below (4) is
                 when 0      => 0,
                 when 1      => 2 ** 32,
                 when 2      => 2 ** Bits + Ticks (Below (2)),
                 when others => Ticks'Last);
   end Some_Bad_Seed;

   --  Record 0 is no header any more, or names edition 2, which made it none
   --  before change request 4.  In some cases its seed is bad too: then 15
   --  comes before 17.
   procedure Damage_Header is
      F      : Fields := Fields_Of (Bytes_At (0));
      Bytes  : Record_Bytes;
      Change : constant Octet := Octet (Between (1, 255));
   begin
      if Chance (10) then
         Tape.Delete (0, Record_Length);  --  the tape begins with a command
         return;
      elsif Chance (40) then
         F.Value := Some_Bad_Seed;
      end if;
      Bytes := Bytes_Of (F);
      if F.Value in 1 .. 4_294_967_295 or else Chance (25) then
         case Below (12) is
            when 0      => Bytes (0) := Bytes (0) xor Change;
            when 1      => Bytes (1) := Bytes (1) xor Change;
            when 2      => Bytes (2) := At_Least (1);
            when 3      => Bytes (3) := 0;
            when 4 | 5  => Bytes (3) := 2;
            when 6      => Bytes (3) := At_Least (3);
            when 7      => Bytes (4) := Change;
            when 8      => Bytes (5) := Change;
            when 9      => Bytes (6) := Change;
            when 10     => Bytes (7) := Change;
            when others => Bytes (4 .. 7) := (others => Change);
         end case;
      end if;
      Put_At (0, Bytes);
   end Damage_Header;

   --  An edition that nobody has.
   function Some_Other_Edition return Octet is
     (case Below (4) is
         when 0      => 0,
         when 1      => 3,
         when others => At_Least (3));

   --  In the place of a header's edition, where the tape is so long.
   procedure Put_Edition (By : Octet) is
   begin
      if Natural (Tape.Length) > 3 then
         Tape (3) := By;
      end if;
   end Put_Edition;

   --  Two command records, the lower number first.
   procedure Some_Two (Lower, Higher : out Positive) is
   begin
      Higher := Between (2, Record_Count - 1);
      Lower  := Between (1, Higher - 1);
   end Some_Two;

   procedure Spoil_Then_Damage is
      Lower, Higher : Positive;
   begin
      Some_Two (Lower, Higher);
      Spoil (Lower);
      Damage (Higher);
   end Spoil_Then_Damage;

   procedure Damage_Then_Spoil is
      Lower, Higher : Positive;
   begin
      Some_Two (Lower, Higher);
      Spoil (Higher);
      if Chance (30) then
         Damage_Header;
      else
         Damage (Lower);
      end if;
   end Damage_Then_Spoil;

   --  At any byte; at a record's beginning, or by one beside it, more often
   --  than by chance.
   procedure Cut_Off is
      Last   : constant Natural := Natural (Tape.Length) - 1;
      Beside : constant Natural := Below (3);
      Number : constant Natural := Below (Record_Count);
      Length : constant Natural :=
        (if Chance (50) then Between (0, Last)
         else Integer'Max (1, Number * Record_Length + Beside) - 1);
   begin
      Tape.Set_Length (Ada.Containers.Count_Type (Length));
   end Cut_Off;

   procedure Append_Some is
      Few : constant Natural := Between (1, 15);
   begin
      case Below (5) is
         when 0      => Add (Bytes_At (Record_Count - 1) (0 .. Few - 1));
         when 1      => Add (Record_Bytes'(others => 0));
         when 2      => Add (Bytes_At (0));
         when 3      => Add ((1 .. Few => 10));
         when others =>
            for I in 1 .. 2 * Few loop
               Tape.Append (Some_Octet);
            end loop;
      end case;
   end Append_Some;

   procedure Shift_Some is
      Place : constant Natural := Below (Natural (Tape.Length));
   begin
      if Chance (50) then
         Tape.Delete (Place);
      else
         Tape.Insert (Place, Some_Octet);
      end if;
   end Shift_Some;

   procedure Flip is
      Place : constant Natural := Below (Natural (Tape.Length));
      Bits  : constant Natural := Below (8);
   begin
      Tape (Place) := Tape (Place) xor 2 ** Bits;
   end Flip;

   --  A true header stands in front in half of them.
   procedure Make_Noise is
   begin
      if Chance (50) then
         Add (Bytes_Of (Tapes.Header (Some_Seed)));
      end if;
      for I in 1 .. Between (1, 100) loop
         Tape.Append (Some_Octet);
      end loop;
   end Make_Noise;

   ----------
   -- Make --
   ----------

   function Least_Length (What : Kind) return Natural is
     (case What is
         when Spoilt | Unseen | Lost | Damaged | Both => 1,
         when Twice | Spoilt_First | Damaged_First    => 2,
         when others                                  => 0);

   procedure Change_As (What : Kind) is
      Lower, Higher : Positive;
   begin
      case What is
         when Right | Odd | Noise | Empty => null;
         when Newer         => Put_Edition (2);
         when Unknown       => Put_Edition (Some_Other_Edition);
         when Spoilt        => Spoil (Some_Number);
         when Twice         => Some_Two (Lower, Higher);
                               Spoil (Lower);
                               Spoil (Higher);
         when Unseen        => Put_Unseen (Some_Number);
         when Lost          => Misplace (Some_Number);
         when Header        => Damage_Header;
         when Damaged       => Damage (Some_Number);
         when Spoilt_First  => Spoil_Then_Damage;
         when Damaged_First => Damage_Then_Spoil;
         when Both          => Higher := Some_Number;
                               Spoil (Higher);
                               Damage (Higher);
         when Cut           => Cut_Off;
         when Appended      => Append_Some;
         when Shifted       => Shift_Some;
         when Flipped       => Flip;
         when Editions      => raise Program_Error;  --  has its parts changed
      end case;
   end Change_As;

   procedure Make_As (What : Kind; Length : Natural) is
   begin
      if What = Noise then
         Make_Noise;
      elsif What /= Empty then
         Make_Right (What, Natural'Max (Length, Least_Length (What)));
      end if;
      Change_As (What);
   end Make_As;

   function Made
     (What : Kind; Length : Natural) return Octet_Vectors.Vector is
   begin
      Tape.Clear;
      Kernel := (others => <>);
      if What = Editions then
         Make_As (Some_Kind, Length);
         Change_As (if Chance (70) then Newer else Unknown);
      else
         Make_As (What, Length);
      end if;
      return Tape;
   end Made;

   procedure Make (What : Kind; Length : Natural) is
   begin
      for Byte of Made (What, Length) loop
         Byte_IO.Put ((1 => Character'Val (Byte)));
      end loop;
   end Make;

end Tape_Inputs;
