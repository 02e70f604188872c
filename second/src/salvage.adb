with Machine; use Machine;

package body Salvage is

   --  A header answered 17 is no header here.
   function Begins_With_Header (Tape : Octets) return Boolean is
     (Tape'Length >= Record_Length
      and then Refusal_Of_Header (Tape (0 .. Record_Length - 1)) = Accepted);

   --  "A header is kept only at byte 0; any other op 0, or a header answered
   --  17, is no record here."
   function Begins_Record (Tape : Octets; Place : Natural) return Boolean is
     (Tape'Length - Place >= Record_Length
      and then ((Place = 0 and then Begins_With_Header (Tape))
                or else Refusal_Of_Command
                          (Tape (Place .. Place + Record_Length - 1))
                        = Accepted));

   --  "at each place, if the next 16 bytes make a record, keep it and go on
   --  behind it, otherwise drop one byte and look again."
   procedure Mark_Kept (Tape : Octets; Kept : out Marks) is
      Place : Natural := 0;
   begin
      Kept := (others => False);
      while Place < Tape'Length loop
         if Begins_Record (Tape, Place) then
            Kept (Place .. Place + Record_Length - 1) := (others => True);
            Place := Place + Record_Length;
         else
            Place := Place + 1;
         end if;
      end loop;
   end Mark_Kept;

   --  A stretch begins at a dropped byte with a kept one, or none, before it,
   --  and takes in all that are dropped behind it.
   function Dropped (Kept : Marks) return Stretch_Vectors.Vector is
      List : Stretch_Vectors.Vector;
   begin
      for I in Kept'Range loop
         if Kept (I) then
            null;
         elsif I = Kept'First or else Kept (I - 1) then
            List.Append ((First => I, Length => 1));
         else
            List (List.Last_Index).Length :=
              List (List.Last_Index).Length + 1;
         end if;
      end loop;
      return List;
   end Dropped;

   function Count_Of (Kept : Marks; Value : Boolean) return Natural is
      Count : Natural := 0;
   begin
      for Mark of Kept loop
         if Mark = Value then
            Count := Count + 1;
         end if;
      end loop;
      return Count;
   end Count_Of;

end Salvage;
