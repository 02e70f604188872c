--  "Seed and draws" of document 01: the commands that the program draw makes
--  out of a seed and a profile; and change request 4, "Even odds for small
--  choices", by which the same menu is drawn from with another choice of
--  numbers.

with Machine; use Machine;

package Generator is

   --  "in 32 bits": unsigned, so that no shift and no remainder ever sees a
   --  sign.
   type Word_32 is mod 2 ** 32;

   --  "Kinds in op order 4..11, each with a weight 0..100."
   subtype Drawn_Op is Natural range Op_Delay .. Op_Done;
   type Weight_Set is array (Drawn_Op) of Word_32;

   type Profile is record
      Span    : Word_32    := 0;
      Weights : Weight_Set := (others => 0);
   end record;

   --  One draw: advances the seed and yields it.
   procedure Advance (Seed : in out Word_32; Drawn : out Word_32);

   --  "at most 8 draws in all" (change request 4)
   Most_Draws : constant := 8;

   --  A choice below N by even odds (change request 4).  "It hands back how
   --  many draws it spent."
   procedure Choose_Evenly
     (N      : Word_32;
      Seed   : in out Word_32;
      Choice : out Word_32;
      Spent  : out Positive)
     with Pre  => N > 0 and then Seed > 0,
          Post => Choice < N and then Spent <= Most_Draws;

   --  By which a number below another is chosen: 1 is document 01, where it
   --  is the remainder of a draw; 2 is change request 4.  "The menu and the
   --  legal kinds are those of edition 1" (READINGS-02, 4), and so are the
   --  weights, the refusals and what a choice stands for.
   type Edition is range 1 .. 2;

   --  18: "span not 1..1000000, a weight above 100, or Wake's weight 0"
   function Is_Bad (P : Profile) return Boolean;

   --  One command.  "A draw: 1, 17, 18, 2" is the order of its checks; "A
   --  refused draw answers op 0 with zero operands and the same seed."
   procedure Draw
     (M      : State;
      P      : Profile;
      Seed   : in out Word_32;
      Number : out Code;
      Drawn  : out Command);

   --  So too by either edition, with the count of draws: 3 by edition 1, 3 to
   --  24 by edition 2, none where it is refused.
   procedure Draw
     (By     : Edition;
      M      : State;
      P      : Profile;
      Seed   : in out Word_32;
      Number : out Code;
      Drawn  : out Command;
      Spent  : out Natural)
     with Post => (if Number = Accepted then Spent in 3 .. 3 * Most_Draws
                   else Spent = 0);

end Generator;
