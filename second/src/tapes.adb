package body Tapes is

   --  "the mark 0x52 0x56"
   Mark : constant Octets (0 .. 1) := (16#52#, 16#56#);

   --  Where a field stands in its record.
   At_Op       : constant := 2;
   At_A        : constant := 3;
   At_B        : constant := 4;
   At_Number   : constant := 5;
   At_Running  : constant := 6;
   At_Released : constant := 7;
   At_Value    : constant := 8;

   --  "value, 8 bytes, least first"
   function Value_Of (Bytes : Record_Bytes) return Ticks is
      Sum : Ticks := 0;
   begin
      for I in reverse At_Value .. Record_Length - 1 loop
         Sum := 256 * Sum + Ticks (Bytes (I));
      end loop;
      return Sum;
   end Value_Of;

   function Bytes_Of (F : Fields) return Record_Bytes is
      Bytes : Record_Bytes;
      Rest  : Ticks := F.Value;
   begin
      Bytes (Mark'Range)  := Mark;
      Bytes (At_Op)       := F.Op;
      Bytes (At_A)        := F.A;
      Bytes (At_B)        := F.B;
      Bytes (At_Number)   := F.Number;
      Bytes (At_Running)  := F.Running;
      Bytes (At_Released) := F.Released;
      for I in At_Value .. Record_Length - 1 loop
         Bytes (I) := Octet (Rest mod 256);
         Rest      := Rest / 256;
      end loop;
      return Bytes;
   end Bytes_Of;

   function Fields_Of (Bytes : Record_Bytes) return Fields is
     ((Op       => Bytes (At_Op),
       A        => Bytes (At_A),
       B        => Bytes (At_B),
       Number   => Bytes (At_Number),
       Running  => Bytes (At_Running),
       Released => Bytes (At_Released),
       Value    => Value_Of (Bytes)));

   --  17 is for "a tape header else right whose value is not
   --  1..4294967295", so 15 comes first: "Record for other editions, in its
   --  old place" (change request 4).
   function Refusal_Of_Header (Bytes : Record_Bytes) return Code is
      F       : constant Fields := Fields_Of (Bytes);
      Written : constant Record_Bytes :=
        Bytes_Of (Header (F.Value, (if F.A in Known_Edition then F.A else 1)));
   begin
      if Bytes /= Written then
         return Bad_Record;
      elsif F.Value not in 1 .. 4_294_967_295 then
         return Bad_Seed;
      else
         return Accepted;
      end if;
   end Refusal_Of_Header;

   --  "Op 1..11, code 0..13, running and released 0..31."  "Any other op 0
   --  is Record."  "Operand bytes and value may hold anything."  "Tape ops run
   --  to 15" (change request 6).
   function Refusal_Of_Command (Bytes : Record_Bytes) return Code is
     (if Bytes (Mark'Range) = Mark
        and then Bytes (At_Op) in 1 .. 15
        and then Bytes (At_Number) <= 13
        and then Bytes (At_Running) <= 31
        and then Bytes (At_Released) <= 31
      then Accepted
      else Bad_Record);

   function Answer_Of (F : Fields) return Answer is
     ((Number   => Code (F.Number),
       Running  => Task_Id (F.Running),
       Released => Task_Id (F.Released),
       Failed   => False));

   function Fields_Of (C : Command; Result : Answer) return Fields is
     ((Op       => Octet (C.Op),
       A        => Octet (C.A),
       B        => Octet (C.B),
       Number   => Octet (Result.Number),
       Running  => Octet (Result.Running),
       Released => Octet (Result.Released),
       Value    => C.Value));

end Tapes;
