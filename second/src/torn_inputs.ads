--  Torn tapes for salvage: whole tapes, and what a dying disk may leave of
--  them.

with Octet_Vectors;

package Torn_Inputs is

   type Kind is
     (Clean,        --  nothing is lost; edition 1 or 2
      Headless,     --  begins in the middle, at a record or within one
      Cut_Out,      --  bytes lost, in one place or in many
      Put_In,       --  bytes put in, between records or within them
      Overwritten,  --  bytes overwritten
      Blocks,       --  whole blocks lost, empty, or full of something else
      Joined,       --  two or three tapes, one behind another, some cut
      Lone_Marks,   --  half a mark, a mark and the like between records
      Overlapping,  --  records that begin inside of damaged ones
      Bad_Header,   --  a header of bad edition or seed, or none
      Late_Header,  --  headers away from byte 0
      Cut_Short,    --  the end is lost, within a record mostly
      Near,         --  records that are none by one field
      Peppered,     --  a byte or a few between every two records
      Junk,         --  no tape
      Empty,        --  no byte
      Mixed);       --  several kinds of damage, one over another

   function Some_Kind return Kind;

   --  How many command records a tape has before it is torn: a few hundred
   --  at the most, so that a tape is made and salvaged at once.
   function Some_Length return Natural;

   function Made
     (What : Kind; Length : Natural) return Octet_Vectors.Vector;

   --  Writes one.
   procedure Make (What : Kind; Length : Natural);

end Torn_Inputs;
