with Decimals;
with GNAT.OS_Lib; use GNAT.OS_Lib;

package body Byte_IO is

   Line_End : constant Character := Character'Val (10);

   Piece : constant := 65_536;

   procedure Fail (Message : String; Status : Positive) is
      Text    : constant String := Message & Line_End;
      Ignored : Integer;
   begin
      Ignored := Write (Standerr, Text'Address, Text'Length);
      OS_Exit (Status);
   end Fail;

   -----------
   -- Input --
   -----------

   Input      : String (1 .. Piece);
   Input_Last : Natural := 0;      --  the last byte of the piece read
   Input_Next : Positive := 1;     --  the next one to hand out
   Input_Over : Boolean := False;

   procedure Next_Byte (Byte : out Character; Found : out Boolean) is
   begin
      if Input_Next > Input_Last and then not Input_Over then
         Input_Last := 0;
         Input_Next := 1;
         declare
            Got : constant Integer := Read (Standin, Input'Address, Piece);
         begin
            if Got < 0 then
               Flush;
               Fail ("cannot read standard input: give a file or a pipe", 1);
            end if;
            Input_Last := Got;
            Input_Over := Got = 0;
         end;
      end if;
      Found := Input_Next <= Input_Last;
      Byte  := Line_End;
      if Found then
         Byte       := Input (Input_Next);
         Input_Next := Input_Next + 1;
      end if;
   end Next_Byte;

   procedure Next_Line (L : out Line; Found : out Boolean) is
      Byte : Character;
      More : Boolean;
   begin
      L.Length := 0;
      Next_Byte (Byte, More);
      Found := More;
      while More and then Byte /= Line_End loop
         if L.Length < Most_Kept then
            L.Length           := L.Length + 1;
            L.Bytes (L.Length) := Byte;
         end if;
         Next_Byte (Byte, More);
      end loop;
   end Next_Line;

   ------------
   -- Output --
   ------------

   Output      : String (1 .. Piece);
   Output_Last : Natural := 0;

   procedure Flush is
      First : Positive := 1;
   begin
      while First <= Output_Last loop
         declare
            Left : constant Positive := Output_Last - First + 1;
            Done : constant Integer :=
              Write (Standout, Output (First)'Address, Left);
         begin
            if Done <= 0 then
               Fail ("cannot write standard output: is the disk full?", 1);
            end if;
            First := First + Done;
         end;
      end loop;
      Output_Last := 0;
   end Flush;

   procedure Put (Text : String) is
   begin
      for Byte of Text loop
         if Output_Last = Piece then
            Flush;
         end if;
         Output_Last          := Output_Last + 1;
         Output (Output_Last) := Byte;
      end loop;
   end Put;

   procedure Put_Line (Text : String) is
   begin
      Put (Text);
      Put ((1 => Line_End));
   end Put_Line;

   procedure Put_Numbers (Numbers : Number_List) is
   begin
      for I in Numbers'Range loop
         if I > Numbers'First then
            Put (" ");
         end if;
         Put (Decimals.Image (Numbers (I)));
      end loop;
      Put ((1 => Line_End));
   end Put_Numbers;

end Byte_IO;
