--  The judge of tapes, the second time: reads a tape from standard input and
--  prints its seed, and whether its answers are document 01's.  Records are
--  read and judged one by one; what comes first is what is said.

with Byte_IO;      use Byte_IO;
with Command_Text;
with Decimals;     use Decimals;
with Machine;      use Machine;
with Tapes;        use Tapes;

procedure Judge2 is

   --  The bytes of the next record; Length of them are there, and fewer than
   --  16 at the end of the tape only.
   procedure Next_Record (Bytes : out Record_Bytes; Length : out Natural) is
      Byte  : Character;
      Found : Boolean := True;
   begin
      Bytes  := (others => 0);
      Length := 0;
      while Length < Record_Length loop
         Next_Byte (Byte, Found);
         exit when not Found;
         Bytes (Length) := Character'Pos (Byte);
         Length         := Length + 1;
      end loop;
   end Next_Record;

   --  The header is record 0, at byte 0.
   function Place (Number : Ticks) return String is
     ("at record " & Image (Number)
      & ", byte " & Image (Number * Record_Length));

   function Refused (Refusal : Code; Number : Ticks) return String is
     ("refused " & Image (Ticks (Refusal)) & " " & Place (Number));

   --  In text an operand that the op has no place for is not seen; in the
   --  brackets all are.
   function In_Words (C : Command) return String is
     (Command_Text.Image (C)
      & " (op " & Image (Ticks (C.Op))
      & ", a " & Image (Ticks (C.A))
      & ", b " & Image (Ticks (C.B))
      & ", value " & Image (C.Value) & ")");

   function In_Words (Result : Answer) return String is
     ("code " & Image (Ticks (Result.Number))
      & ", running " & Image (Ticks (Result.Running))
      & ", released " & Image (Ticks (Result.Released)));

   function Differs
     (Number : Ticks; C : Command; On_Tape, By_Rules : Answer) return String is
     ("differs " & Place (Number) & ": " & In_Words (C)
      & "; tape: " & In_Words (On_Tape)
      & "; rules: " & In_Words (By_Rules));

   --  The command records, from a fresh machine on.  The reader's refusal of
   --  a record comes before any judgement of it; the end of the tape at a
   --  whole record is the end.
   function Verdict_On_Commands return String is
      Kernel : State;
      Bytes  : Record_Bytes;
      Length : Natural;
      Number : Ticks := 0;
   begin
      loop
         Next_Record (Bytes, Length);
         if Length = 0 then
            return "agrees: " & Image (Number) & " command records";
         end if;
         Number := Number + 1;
         if Length < Record_Length then
            return Refused (Bad_Record, Number);
         elsif Refusal_Of_Command (Bytes) /= Accepted then
            return Refused (Refusal_Of_Command (Bytes), Number);
         end if;
         declare
            C        : constant Command := Command_Of (Fields_Of (Bytes));
            On_Tape  : constant Answer := Answer_Of (Fields_Of (Bytes));
            By_Rules : Answer;
         begin
            Step (Kernel, C, By_Rules);
            By_Rules.Failed := False;  --  a record does not carry it
            if On_Tape /= By_Rules then
               return Differs (Number, C, On_Tape, By_Rules);
            end if;
         end;
      end loop;
   end Verdict_On_Commands;

   procedure Say (Seed : Ticks; Verdict : String) is
   begin
      Put_Line ("seed " & Image (Seed));
      Put_Line (Verdict);
   end Say;

   --  The seed is that of the header, of one that is refused for its seed too;
   --  without a header it is 0.
   procedure Judge is
      Bytes   : Record_Bytes;
      Length  : Natural;
      Refusal : Code;
   begin
      Next_Record (Bytes, Length);
      Refusal := (if Length < Record_Length then Bad_Record
                  else Refusal_Of_Header (Bytes));
      if Refusal = Accepted then
         Say (Fields_Of (Bytes).Value, Verdict_On_Commands);
      else
         Say ((if Refusal = Bad_Seed then Fields_Of (Bytes).Value else 0),
              Refused (Refusal, Number => 0));
      end if;
   end Judge;

begin
   Judge;
   Flush;
end Judge2;
