with Decimals; use Decimals;

package body Command_Text is

   Blank : constant Character := ' ';

   -----------
   -- Words --
   -----------

   --  A line is cut at each single blank.  A leading, trailing or double
   --  blank thus makes an empty word, and no place below takes an empty one.

   function Word_Count (Line : String) return Positive is
      Count : Positive := 1;
   begin
      for Byte of Line loop
         if Byte = Blank then
            Count := Count + 1;
         end if;
      end loop;
      return Count;
   end Word_Count;

   --  Word number N, from 1 upward.
   function Word (Line : String; N : Positive) return String is
      First   : Positive := Line'First;
      Current : Positive := 1;
   begin
      for I in Line'Range loop
         if Line (I) = Blank then
            if Current = N then
               return Line (First .. I - 1);
            end if;
            Current := Current + 1;
            First   := I + 1;
         end if;
      end loop;
      return Line (First .. Line'Last);
   end Word;

   --------------
   -- Commands --
   --------------

   function Name (Op : Known_Op) return String is
     (case Op is
         when Op_Create  => "create",
         when Op_Object  => "object",
         when Op_Start   => "start",
         when Op_Delay   => "delay",
         when Op_Wake    => "wake",
         when Op_Advance => "advance",
         when Op_Open    => "open",
         when Op_Closep  => "closep",
         when Op_Closef  => "closef",
         when Op_Entry   => "entry",
         when Op_Done    => "done",
         when Op_Failp   => "failp",
         when Op_Failf   => "failf",
         when Op_Faile   => "faile",
         when Op_Failw   => "failw");

   --  What stands behind the word: "its operands in the table's order (a, b,
   --  value)".
   type Operands is (None, A_Only, A_And_B, Value_Only);

   function Operands_Of (Op : Known_Op) return Operands is
     (case Op is
         when Op_Start | Op_Wake                        => None,
         when Op_Delay | Op_Advance                     => Value_Only,
         when Op_Open | Op_Closef | Op_Failf            => A_Only,
         when Op_Create | Op_Object
            | Op_Closep | Op_Entry | Op_Done
            | Op_Failp | Op_Faile | Op_Failw            => A_And_B);

   function Operand_Count (Op : Known_Op) return Natural is
     (case Operands_Of (Op) is
         when None                => 0,
         when A_Only | Value_Only => 1,
         when A_And_B             => 2);

   --  "a and b at most 255, value at most 2^64-1"
   function Is_Small (Word : String) return Boolean is
     (Is_Decimal (Word, 255));
   function Is_Value (Word : String) return Boolean is
     (Is_Decimal (Word, Ticks'Last));

   function Has_Operands (Line : String; Op : Known_Op) return Boolean is
     (Word_Count (Line) = 1 + Operand_Count (Op)
      and then
        (case Operands_Of (Op) is
            when None       => True,
            when Value_Only => Is_Value (Word (Line, 2)),
            when A_Only     => Is_Small (Word (Line, 2)),
            when A_And_B    => Is_Small (Word (Line, 2))
                               and then Is_Small (Word (Line, 3))));

   function With_Operands (Line : String; Op : Known_Op) return Command is
     (case Operands_Of (Op) is
         when None       => (Op => Op, others => <>),
         when Value_Only => (Op, 0, 0, Value (Word (Line, 2))),
         when A_Only     => (Op, Natural (Value (Word (Line, 2))), 0, 0),
         when A_And_B    => (Op, Natural (Value (Word (Line, 2))),
                             Natural (Value (Word (Line, 3))), 0));

   --  "Anything else, an empty line included, is 14."
   procedure Read_Command
     (Line : String; Number : out Code; C : out Command) is
   begin
      Number := Bad_Line;
      C      := (others => <>);
      if Line'Length > Longest_Command then
         return;
      end if;
      for Op in Known_Op loop
         if Word (Line, 1) = Name (Op) and then Has_Operands (Line, Op) then
            Number := Accepted;
            C      := With_Operands (Line, Op);
         end if;
      end loop;
   end Read_Command;

   function Image (C : Command) return String is
     (case Operands_Of (C.Op) is
         when None       => Name (C.Op),
         when Value_Only => Name (C.Op) & Blank & Image (C.Value),
         when A_Only     => Name (C.Op) & Blank & Image (Ticks (C.A)),
         when A_And_B    => Name (C.Op) & Blank & Image (Ticks (C.A))
                            & Blank & Image (Ticks (C.B)));

   ------------------------
   -- First line of draw --
   ------------------------

   --  seed S span N weights W W W W W W W W count K: the place of each word.
   At_Seed    : constant := 2;
   At_Span    : constant := 4;
   At_Weights : constant := 6;  --  and the seven behind it
   At_Count   : constant := 15;

   Most_Word_32 : constant Ticks := 4_294_967_295;
   Most_Count   : constant Ticks := 100_000;

   function Is_Word_32 (Word : String) return Boolean is
     (Is_Decimal (Word, Most_Word_32));

   function Is_Count (Word : String) return Boolean is
     (Is_Decimal (Word, Most_Count) and then Value (Word) >= 1);

   --  The form, for 14: "`seed S span N weights` with eight weights and
   --  `count K` (K 1..100000, otherwise 14) ... (span and weights at most
   --  4294967295, else 14; the seed's word, any non-blank bytes, is left to
   --  17)"
   function Has_Form (Line : String) return Boolean is
     (Line'Length <= Longest_First_Line
      and then Word_Count (Line) = At_Count
      and then Word (Line, At_Seed - 1) = "seed"
      and then Word (Line, At_Seed)'Length > 0
      and then Word (Line, At_Span - 1) = "span"
      and then Is_Word_32 (Word (Line, At_Span))
      and then Word (Line, At_Weights - 1) = "weights"
      and then (for all I in 0 .. 7 =>
                  Is_Word_32 (Word (Line, At_Weights + I)))
      and then Word (Line, At_Count - 1) = "count"
      and then Is_Count (Word (Line, At_Count)));

   --  "Seed text is 1 to 10 decimal digits, no sign, no leading zero."  And
   --  17 is also "seed 0, seed text not 1..4294967295".
   function Is_Seed (Word : String) return Boolean is
     (Is_Decimal (Word, Most_Word_32) and then Value (Word) >= 1);

   function Profile_Of (Line : String) return Profile is
      P : Profile;
   begin
      P.Span := Word_32 (Value (Word (Line, At_Span)));
      for Op in Drawn_Op loop
         P.Weights (Op) :=
           Word_32 (Value (Word (Line, At_Weights + (Op - Drawn_Op'First))));
      end loop;
      return P;
   end Profile_Of;

   procedure Read_First_Line
     (Line : String; Number : out Code; First : out First_Line) is
   begin
      First := (others => <>);
      if not Has_Form (Line) then Number := Bad_Line;
      elsif not Is_Seed (Word (Line, At_Seed)) then Number := Bad_Seed;
      elsif Is_Bad (Profile_Of (Line)) then Number := Bad_Profile;
      else
         Number := Accepted;
         First  := (Seed  => Word_32 (Value (Word (Line, At_Seed))),
                    Setup => Profile_Of (Line),
                    Count => Natural (Value (Word (Line, At_Count))));
      end if;
   end Read_First_Line;

end Command_Text;
