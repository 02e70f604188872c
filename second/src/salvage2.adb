--  The salvage program, the second time: reads the tape OLD, writes the
--  records that can be kept to NEW, and prints what was dropped.
--
--     salvage2 OLD NEW
--
--  NEW must not be there yet.

with Ada.Command_Line; use Ada.Command_Line;
with Byte_IO;          use Byte_IO;
with Decimals;         use Decimals;
with GNAT.OS_Lib;      use GNAT.OS_Lib;
with Machine;          use Machine;
with Salvage;          use Salvage;
with Tapes;            use Tapes;

procedure Salvage2 is

   --  Tapes are long: they stand on the heap.
   type Octets_Access is access Octets;
   type Marks_Access is access Marks;

   --  The bytes of an ordinary file.
   function Contents (Name : String) return Octets_Access is
      File  : constant File_Descriptor := Open_Read (Name, Binary);
      Bytes : Octets_Access;
      Place : Natural := 0;
      Got   : Integer;
   begin
      if File = Invalid_FD then
         Fail ("salvage2: cannot open " & Name, Status => 2);
      end if;
      Bytes := new Octets (0 .. Natural (File_Length (File)) - 1);
      while Place < Bytes'Length loop
         Got := Read (File, Bytes (Place)'Address, Bytes'Length - Place);
         if Got <= 0 then
            Fail ("salvage2: cannot read " & Name, Status => 1);
         end if;
         Place := Place + Got;
      end loop;
      Close (File);
      return Bytes;
   end Contents;

   --  The kept bytes, one behind another.
   function Kept_Bytes
     (Tape : Octets; Kept : Marks) return Octets_Access
   is
      Bytes : constant Octets_Access :=
        new Octets (0 .. Count_Of (Kept, True) - 1);
      Place : Natural := 0;
   begin
      for I in Tape'Range loop
         if Kept (I) then
            Bytes (Place) := Tape (I);
            Place         := Place + 1;
         end if;
      end loop;
      return Bytes;
   end Kept_Bytes;

   procedure Write_New (Name : String; Bytes : Octets) is
      File  : constant File_Descriptor := Create_New_File (Name, Binary);
      Place : Natural := 0;
      Done  : Integer;
   begin
      if File = Invalid_FD then
         Fail ("salvage2: cannot make " & Name & "; is it there already?",
               Status => 2);
      end if;
      while Place < Bytes'Length loop
         Done := Write (File, Bytes (Place)'Address, Bytes'Length - Place);
         if Done <= 0 then
            Fail ("salvage2: cannot write " & Name, Status => 1);
         end if;
         Place := Place + Done;
      end loop;
      Close (File);
   end Write_New;

   --  "Without a header the output has none and says so."
   procedure Say (Kept : Marks; Headed : Boolean) is
   begin
      for S of Dropped (Kept) loop
         Put_Line ("dropped: first byte " & Image (Ticks (S.First))
                   & ", length " & Image (Ticks (S.Length)));
      end loop;
      Put_Line ("kept: records "
                & Image (Ticks (Count_Of (Kept, True) / Record_Length))
                & ", dropped bytes " & Image (Ticks (Count_Of (Kept, False)))
                & ", header " & (if Headed then "yes" else "no"));
   end Say;

begin
   if Argument_Count /= 2 then
      Fail ("usage: salvage2 OLD NEW", Status => 2);
   end if;
   declare
      Tape : constant Octets_Access := Contents (Argument (1));
      Kept : constant Marks_Access := new Marks (Tape'Range);
   begin
      Mark_Kept (Tape.all, Kept.all);
      Write_New (Argument (2), Kept_Bytes (Tape.all, Kept.all).all);
      Say (Kept.all, Begins_With_Header (Tape.all));
      Flush;
   end;
end Salvage2;
