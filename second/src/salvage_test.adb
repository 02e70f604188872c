--  What holds of every torn tape (change request 5), tried on many of
--  make_torn's.  What a record is, is said here once more, in bytes.

with Ada.Command_Line;
with Byte_IO;       use Byte_IO;
with Decimals;      use Decimals;
with Fresh_Numbers;
with Machine;       use Machine;
with Octet_Vectors;
with Salvage;       use Salvage;
with Tapes;         use Tapes;
with Torn_Inputs;   use Torn_Inputs;

procedure Salvage_Test is

   Checks, Failures : Ticks := 0;

   procedure Check (Name : String; Number : Positive; Holds : Boolean) is
   begin
      Checks := Checks + 1;
      if not Holds then
         Failures := Failures + 1;
         Put_Line ("salvage_test: tape " & Image (Ticks (Number))
                   & ": not so: " & Name);
      end if;
   end Check;

   function Bytes_Of (Tape : Octet_Vectors.Vector) return Octets is
      Bytes : Octets (0 .. Natural (Tape.Length) - 1);
   begin
      for I in Bytes'Range loop
         Bytes (I) := Tape (I);
      end loop;
      return Bytes;
   end Bytes_Of;

   function Marks_Of (Tape : Octets) return Marks is
      Kept : Marks (Tape'Range);
   begin
      Mark_Kept (Tape, Kept);
      return Kept;
   end Marks_Of;

   --  The new tape.
   function Kept_Bytes (Tape : Octets; Kept : Marks) return Octets is
      Bytes : Octets (0 .. Count_Of (Kept, True) - 1);
      Next  : Natural := 0;
   begin
      for I in Tape'Range loop
         if Kept (I) then
            Bytes (Next) := Tape (I);
            Next         := Next + 1;
         end if;
      end loop;
      return Bytes;
   end Kept_Bytes;

   function Lengths (List : Stretch_Vectors.Vector) return Natural is
      Sum : Natural := 0;
   begin
      for S of List loop
         Sum := Sum + S.Length;
      end loop;
      return Sum;
   end Lengths;

   --  Whether the 16 bytes from Place on are there and make a record.
   function Is_Record (Tape : Octets; Place : Natural) return Boolean is
     (Place + 16 <= Tape'Length
      and then Tape (Place) = 16#52# and then Tape (Place + 1) = 16#56#
      and then
        (if Tape (Place + 2) = 0 then
           Place = 0
           and then Tape (3) in 1 | 2
           and then Tape (4 .. 7) = Octets'(0, 0, 0, 0)
           and then Tape (12 .. 15) = Octets'(0, 0, 0, 0)
           and then Tape (8 .. 11) /= Octets'(0, 0, 0, 0)
         else
           Tape (Place + 2) <= 15 and then Tape (Place + 5) <= 13
           and then Tape (Place + 6) <= 31 and then Tape (Place + 7) <= 31));

   --  At no byte of a stretch does a record begin; between the stretches
   --  stands record behind record.  No other list is such: at a place that is
   --  reached, the next 16 bytes make a record or they do not.
   function Is_Right
     (Tape : Octets; List : Stretch_Vectors.Vector) return Boolean
   is
      Place : Natural := 0;

      --  Goes on over records to there.
      function Records_To (Goal : Natural) return Boolean is
      begin
         while Place < Goal loop
            if not Is_Record (Tape, Place) then
               return False;
            end if;
            Place := Place + 16;
         end loop;
         return Place = Goal;
      end Records_To;

   begin
      for S of List loop
         if not Records_To (S.First)
           or else (for some P in S.First .. S.First + S.Length - 1 =>
                      Is_Record (Tape, P))
         then
            return False;
         end if;
         Place := S.First + S.Length;
      end loop;
      return Records_To (Tape'Length);
   end Is_Right;

   --  Between two stretches something is kept.
   function Are_Apart (List : Stretch_Vectors.Vector) return Boolean is
     (for all I in 1 .. Natural (List.Length) - 1 =>
        List (I).First + List (I).Length < List (I + 1).First);

   procedure Try (Number : Positive; What : Kind; Tape : Octets) is
      Kept   : constant Marks := Marks_Of (Tape);
      List   : constant Stretch_Vectors.Vector := Dropped (Kept);
      Fresh  : constant Octets := Kept_Bytes (Tape, Kept);
      Again  : constant Marks := Marks_Of (Fresh);
      Headed : constant Boolean := Begins_With_Header (Tape);
   begin
      Check ("whole records are kept", Number, Fresh'Length mod 16 = 0);
      Check ("kept records times 16 plus the lengths is the tape's length",
             Number, Fresh'Length + Lengths (List) = Tape'Length);
      Check ("records, and stretches where none begins", Number,
             Is_Right (Tape, List));
      Check ("stretches stand apart", Number, Are_Apart (List));
      Check ("salvaging twice changes nothing", Number,
             (for all Mark of Again => Mark)
             and then Begins_With_Header (Fresh) = Headed);
      Check ("a header at byte 0 alone", Number,
             Headed = (Is_Record (Tape, 0) and then Tape (2) = 0));
      if What = Clean then
         Check ("an undamaged tape comes out the same with an empty list",
                Number, Fresh = Tape and then List.Is_Empty and then Headed);
      end if;
   end Try;

   --  Bytes of 0 between records, where no mark begins: no record is lost.
   procedure Try_Gaps (Number : Positive; Tape : Octets) is
      Torn : Octet_Vectors.Vector;
   begin
      for I in Tape'Range loop
         if I > 0 and then I mod 16 = 0 then
            for Count in 1 .. Fresh_Numbers.Below (20) loop
               Torn.Append (0);
            end loop;
         end if;
         Torn.Append (Tape (I));
      end loop;
      declare
         Bytes : constant Octets := Bytes_Of (Torn);
      begin
         Check ("nothing is lost where zeros were put in", Number,
                Kept_Bytes (Bytes, Marks_Of (Bytes)) = Tape);
      end;
   end Try_Gaps;

   Tapes_Of_Any_Kind : constant := 4000;

begin
   for Number in 1 .. Tapes_Of_Any_Kind loop
      Fresh_Numbers.Start ('s', Ticks (Number));
      declare
         What   : constant Kind := Some_Kind;
         Length : constant Natural := Some_Length;
      begin
         Try (Number, What, Bytes_Of (Made (What, Length)));
      end;
   end loop;
   for Number in 1 .. 200 loop
      Fresh_Numbers.Start ('s', Ticks (Number));
      declare
         Tape : constant Octets := Bytes_Of (Made (Clean, Number));
      begin
         Try (Number, Clean, Tape);
         Try_Gaps (Number, Tape);
      end;
   end loop;
   Put_Line ("salvage_test: " & Image (Checks) & " checks, "
             & Image (Failures) & " failures");
   Flush;
   Ada.Command_Line.Set_Exit_Status (if Failures = 0 then 0 else 1);
end Salvage_Test;
