with Ada.Containers; use Ada.Containers;
with Byte_IO;
with Fresh_Numbers;  use Fresh_Numbers;
with Machine;        use Machine;
with Tape_Inputs;    use Tape_Inputs;
with Tapes;          use Tapes;

package body Torn_Inputs is

   --  As in Tape_Inputs, no expression below draws twice: the order would be
   --  open.

   Tape : Octet_Vectors.Vector;

   Mark : constant Octets (0 .. 1) := (16#52#, 16#56#);

   ----------------
   -- The choice --
   ----------------

   function Some_Kind return Kind is
     (case Below (100) is
         when 0 .. 3   => Clean,
         when 4 .. 9   => Headless,
         when 10 .. 18 => Cut_Out,
         when 19 .. 27 => Put_In,
         when 28 .. 35 => Overwritten,
         when 36 .. 41 => Blocks,
         when 42 .. 46 => Joined,
         when 47 .. 55 => Lone_Marks,
         when 56 .. 65 => Overlapping,
         when 66 .. 72 => Bad_Header,
         when 73 .. 77 => Late_Header,
         when 78 .. 82 => Cut_Short,
         when 83 .. 88 => Near,
         when 89 .. 91 => Peppered,
         when 92 .. 94 => Junk,
         when 95       => Empty,
         when others   => Mixed);

   function Some_Length return Natural is
     (case Below (20) is
         when 0       => 0,
         when 1 .. 5  => Between (1, 6),
         when 6 .. 17 => Between (7, 60),
         when others  => Between (61, 600));

   ---------------
   -- The bytes --
   ---------------

   procedure Add (Bytes : Octets) is
   begin
      for Byte of Bytes loop
         Tape.Append (Byte);
      end loop;
   end Add;

   procedure Put_Over (Place : Natural; Bytes : Octets) is
   begin
      for I in Bytes'Range loop
         if Place + I - Bytes'First < Natural (Tape.Length) then
            Tape (Place + I - Bytes'First) := Bytes (I);
         end if;
      end loop;
   end Put_Over;

   procedure Put_Before (Place : Natural; Bytes : Octets) is
   begin
      Tape.Insert (Place, 0, Bytes'Length);
      Put_Over (Place, Bytes);
   end Put_Before;

   procedure Take_Out (Place : Natural; Count : Natural) is
   begin
      Tape.Delete (Place, Count_Type (Count));
   end Take_Out;

   function Record_Count return Natural is
     (Natural (Tape.Length) / Record_Length);

   function Bytes_At (Number : Natural) return Record_Bytes is
      Bytes : Record_Bytes;
   begin
      for I in Bytes'Range loop
         Bytes (I) := Tape (Number * Record_Length + I);
      end loop;
      return Bytes;
   end Bytes_At;

   -------------------
   -- Drawn records --
   -------------------

   --  0 .. Most, the two ends more often than by chance.
   function Up_To (Most : Octet) return Octet is
     (case Below (4) is
         when 0      => 0,
         when 1      => Most,
         when others => Octet (Between (0, Natural (Most))));

   --  Any record of the right form, whatever the rules would answer; in most
   --  values that are drawn no byte is like another.
   function Some_Record
     (Most_Operand : Octet := 255; Most_Op : Octet := 15) return Record_Bytes
   is
      Bytes : Record_Bytes := (others => 0);
   begin
      Bytes (0 .. 1) := Mark;
      Bytes (2) := 1 + Up_To (Most_Op - 1);
      Bytes (3) := Up_To (Most_Operand);
      Bytes (4) := Up_To (Most_Operand);
      Bytes (5) := Up_To (13);
      Bytes (6) := Up_To (31);
      Bytes (7) := Up_To (31);
      if Chance (60) then
         for I in 8 .. 15 loop
            Bytes (I) := Some_Octet;
         end loop;
      end if;
      return Bytes;
   end Some_Record;

   --  A record that holds the beginning of another, whose rest is the
   --  beginning of the next record: so two rows of records stand one within
   --  the other, and both are read if they are begun.  With the mark and the
   --  bounds in their places this can be at bytes 3, 8 and 13 only, and at 3
   --  and 13 the op of one stands where the other has its code.
   subtype Inside is Natural
     with Static_Predicate => Inside in 3 | 8 | 13;

   function Nested_Record (Offset : Inside) return Record_Bytes is
      Outer : Record_Bytes :=
        Some_Record (Most_Operand => 31, Most_Op => 13);
      Inner : constant Record_Bytes :=
        Some_Record (Most_Operand => 31, Most_Op => 13);
   begin
      Outer (Offset .. 15) := Inner (0 .. 15 - Offset);
      return Outer;
   end Nested_Record;

   function Some_Header return Record_Bytes is
      Seed : constant Ticks := Some_Seed;
   begin
      return Bytes_Of
        (Tapes.Header (Seed, (if Chance (30) then 2 else 1)));
   end Some_Header;

   --  A whole tape: of the rules' answers, or of drawn records.
   procedure Add_Whole (Length : Natural) is
   begin
      if Chance (40) then
         Tape.Append
           (Tape_Inputs.Made ((if Chance (70) then Right else Newer),
                              Length));
      else
         Add (Some_Header);
         for I in 1 .. Length loop
            Add (Some_Record);
         end loop;
      end if;
   end Add_Whole;

   ----------
   -- Junk --
   ----------

   --  Bytes that are no tape, of one taste.
   function Some_Junk (Length : Natural) return Octets is
      Bytes : Octets (0 .. Length - 1) := (others => 0);
      Taste : constant Natural := Below (8);
      Piece : Record_Bytes := Some_Record;
      Left  : Natural := 0;  --  of a piece
      Next  : Natural := 0;  --  byte of the piece
   begin
      for Byte of Bytes loop
         if Left = 0 then
            Piece := Some_Record;
            Left  := Between (1, 15);
            Next  := 0;
         end if;
         Byte := (case Taste is
                     when 0      => 0,
                     when 1      => 16#FF#,
                     when 2      => Mark (0),
                     when 3      => Mark (Below (2)),
                     when 4      => (if Chance (30) then Mark (0)
                                     else Some_Octet),
                     when 5 | 6  => Piece (Next),
                     when others => Some_Octet);
         Left := Left - 1;
         Next := Next + 1;
      end loop;
      return Bytes;
   end Some_Junk;

   --  Junk of one taste behind junk of another.
   procedure Add_Junk (Length : Positive) is
      Left : Natural := Length;
   begin
      while Left > 0 loop
         declare
            Next : constant Positive := Between (1, Natural'Min (Left, 999));
         begin
            Add (Some_Junk (Next));
            Left := Left - Next;
         end;
      end loop;
   end Add_Junk;

   --  1 .. 40, few more often than many.
   function Few return Positive is
     (case Below (4) is
         when 0      => 1,
         when 1      => Between (1, 15),
         when 2      => 16,
         when others => Between (1, 40));

   --  How many places of a tape are damaged: one, or one in eight records; of
   --  a long tape always many.
   function Some_Count return Positive is
      Most : constant Positive := 1 + Natural'Min (Record_Count / 8, 300);
   begin
      return (if Record_Count > 10_000 then Between (Most / 2, Most)
              elsif Chance (40) then 1
              else Between (1, Most));
   end Some_Count;

   --  A byte of the tape; where records begin that are not out of step, or by
   --  one beside it, more often than by chance.
   function Some_Place return Natural is
      Number : constant Natural := Below (Record_Count + 1);
      Beside : constant Natural := Below (3);
   begin
      return (if Chance (50) then Below (Natural (Tape.Length))
              else Natural'Min (Natural (Tape.Length) - 1,
                                Integer'Max (1, Number * Record_Length
                                                + Beside) - 1));
   end Some_Place;

   -------------------
   -- Kinds of harm --
   -------------------

   procedure Behead is
      Count : constant Natural :=
        (if Chance (40) then Between (1, Record_Count) * Record_Length
         else Between (1, Natural (Tape.Length)));
   begin
      Take_Out (0, Count);
   end Behead;

   procedure Cut_Some_Out is
   begin
      for I in 1 .. Some_Count loop
         exit when Tape.Is_Empty;
         declare
            Place : constant Natural := Some_Place;
            Count : constant Positive := Few;
         begin
            Take_Out (Place, Count);
         end;
      end loop;
   end Cut_Some_Out;

   procedure Put_Some_In is
   begin
      for I in 1 .. Some_Count loop
         declare
            Place : constant Natural := Some_Place;
            Count : constant Positive := Few;
         begin
            Put_Before (Place, Some_Junk (Count));
         end;
      end loop;
   end Put_Some_In;

   procedure Overwrite_Some is
   begin
      for I in 1 .. Some_Count loop
         declare
            Place : constant Natural := Some_Place;
            Count : constant Positive := Few;
         begin
            Put_Over (Place, Some_Junk (Count));
         end;
      end loop;
   end Overwrite_Some;

   --  Blocks of one size.  On long tapes they are longer than what a program
   --  reads in one piece.
   procedure Lose_Blocks is
      Size : constant Positive :=
        (if Natural (Tape.Length) > 1_000_000 then 200_000
         else (case Below (4) is
                  when 0      => 64,
                  when 1      => 512,
                  when 2      => Between (100, 1000),
                  when others => 256));
   begin
      for I in 1 .. Between (1, 4) loop
         exit when Tape.Is_Empty;
         declare
            Blocks : constant Positive := 1 + Natural (Tape.Length) / Size;
            Place  : constant Natural :=
              Natural'Min (Below (Blocks) * Size, Natural (Tape.Length) - 1);
         begin
            case Below (3) is
               when 0      => Take_Out (Place, Size);
               when 1      => Put_Over (Place, Octets'(1 .. Size => 0));
               when others => Put_Over (Place, Some_Junk (Size));
            end case;
         end;
      end loop;
   end Lose_Blocks;

   procedure Cut_Tail is
      Count : constant Natural :=
        (if Chance (80) then Between (1, 15)
         else Between (1, Natural (Tape.Length)));
   begin
      Tape.Delete_Last (Count_Type (Count));
   end Cut_Tail;

   --  What begins as a record does, and is none.
   function Some_Lone_Mark return Octets is
      Length : constant Positive := Between (2, 15);
   begin
      return (case Below (7) is
                 when 0      => (1 => Mark (0)),
                 when 1      => Mark,
                 when 2      => Mark (0) & Mark (0),
                 when 3      => Mark (0) & Mark,
                 when 4      => Mark & Mark (0),
                 when 5      => Some_Record (0 .. Length - 1),
                 when others => Mark (1) & Mark (0));
   end Some_Lone_Mark;

   --  Before a record, alone or with junk on either side.
   procedure Put_Marks_In is
   begin
      for I in 1 .. Some_Count loop
         declare
            Place  : constant Natural :=
              Below (Record_Count + 1) * Record_Length;
            Before : constant Octets := Some_Junk (Below (4));
            Lone   : constant Octets := Some_Lone_Mark;
            Behind : constant Octets := Some_Junk (Below (2));
         begin
            Put_Before (Place, Before & Lone & Behind);
         end;
      end loop;
   end Put_Marks_In;

   --  A tape of two rows of records, some of the outer ones damaged in what
   --  they have alone; or a whole record put over two.
   procedure Add_Overlapping (Length : Natural) is
      Offset : constant Inside :=
        (case Below (3) is when 0 => 3, when 1 => 8, when others => 13);
   begin
      Add (Some_Header);
      for I in 1 .. Length loop
         Add (Nested_Record (Offset));
      end loop;
      for I in 1 .. Some_Count loop
         declare
            Place  : constant Natural := Below (Record_Count) * Record_Length;
            Within : constant Natural := Below (3);
            Over   : constant Natural := Between (1, 15);
         begin
            if Chance (60) then
               Put_Over (Place + Within, (1 => 0));
            else
               Put_Over (Place + Over, Some_Record);
            end if;
         end;
      end loop;
   end Add_Overlapping;

   procedure Spoil_Header is
      Bytes  : Record_Bytes := Bytes_At (0);
      Place  : constant Natural := Between (4, 7);
      Change : constant Octet := Octet (Between (1, 255));
   begin
      case Below (8) is
         when 0 | 1  => Bytes (3) := Some_Other_Edition;
         when 2 .. 4 => Bytes :=
                          Bytes_Of (Tapes.Header (Some_Bad_Seed,
                                                  1 + Bytes (3) mod 2));
         when 5      => Bytes (Place) := Change;
         when 6      => Bytes := Damaged (Bytes, Bytes);
         when others => Bytes := Some_Record;
      end case;
      Put_Over (0, Bytes);
   end Spoil_Header;

   --  The tape's own header comes late, or a header comes again.
   procedure Put_Headers_In is
   begin
      if Chance (40) then
         Put_Before (0, Some_Junk (Between (1, 17)));
      end if;
      if Chance (30) then
         Put_Before (0, Some_Record);
      end if;
      for I in 1 .. Some_Count loop
         declare
            Place : constant Natural :=
              Natural'Min (1 + Some_Place, Natural (Tape.Length));
         begin
            if Chance (50) then
               Put_Before (Place / Record_Length * Record_Length,
                           Some_Header);
            else
               Put_Before (Place, Some_Header);
            end if;
         end;
      end loop;
   end Put_Headers_In;

   procedure Damage_Some is
   begin
      for I in 1 .. Some_Count loop
         declare
            Number : constant Natural := Below (Record_Count);
         begin
            Put_Over (Number * Record_Length,
                      Damaged (Bytes_At (Number), Bytes_At (0)));
         end;
      end loop;
   end Damage_Some;

   --  The header too has a byte behind it.
   procedure Add_Peppered (Length : Natural) is
      Most : constant Positive := Between (1, 3);
   begin
      Add (Some_Header);
      for I in 1 .. Length loop
         Add (Some_Junk (Between (1, Most)));
         Add (Some_Record);
      end loop;
   end Add_Peppered;

   --------------------
   -- Torn and mixed --
   --------------------

   --  The kinds that harm a tape that is there.
   subtype Harm is Kind
     with Static_Predicate =>
       Harm in Headless | Cut_Out | Put_In | Overwritten | Blocks
             | Lone_Marks | Bad_Header | Late_Header | Cut_Short | Near;

   --  All of them need a record to begin with.
   procedure Do_Harm (What : Harm) is
   begin
      if Record_Count = 0 then
         Add (Some_Header);
      end if;
      case What is
         when Headless    => Behead;
         when Cut_Out     => Cut_Some_Out;
         when Put_In      => Put_Some_In;
         when Overwritten => Overwrite_Some;
         when Blocks      => Lose_Blocks;
         when Lone_Marks  => Put_Marks_In;
         when Bad_Header  => Spoil_Header;
         when Late_Header => Put_Headers_In;
         when Cut_Short   => Cut_Tail;
         when Near        => Damage_Some;
      end case;
   end Do_Harm;

   --  Each is a whole tape; in most cases one before has lost some bytes at
   --  its end, so that the next is out of step.
   procedure Join (Length : Natural) is
   begin
      Add_Whole (Length);
      for I in 1 .. Between (1, 2) loop
         if Chance (60) then
            Cut_Tail;
         end if;
         Add_Whole (Length / 2);
      end loop;
   end Join;

   procedure Mix (Length : Natural) is
      What : Kind;
   begin
      if Chance (30) then
         Add_Overlapping (Length);
      else
         Add_Whole (Length);
      end if;
      for I in 1 .. Between (2, 5) loop
         loop
            What := Some_Kind;
            exit when What in Harm and then What /= Headless;
         end loop;
         Do_Harm (What);
      end loop;
   end Mix;

   function Made
     (What : Kind; Length : Natural) return Octet_Vectors.Vector is
   begin
      Tape.Clear;
      case What is
         when Clean       => Add_Whole (Length);
         when Overlapping => Add_Overlapping (Length);
         when Peppered    => Add_Peppered (Length);
         when Joined      => Join (Length);
         when Junk        => Add_Junk (16 * Length + 1);
         when Empty       => null;
         when Mixed       => Mix (Length);
         when Harm        => Add_Whole (Length);
                             Do_Harm (What);
      end case;
      return Tape;
   end Made;

   procedure Make (What : Kind; Length : Natural) is
   begin
      for Byte of Made (What, Length) loop
         Byte_IO.Put ((1 => Character'Val (Byte)));
      end loop;
   end Make;

end Torn_Inputs;
