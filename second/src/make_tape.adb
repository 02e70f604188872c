--  Makes a tape for the judge; Make_By_Number says how.  The kinds stand in
--  tape_inputs.ads.

with Make_By_Number;
with Tape_Inputs; use Tape_Inputs;

procedure Make_Tape is
   procedure Make_It is new Make_By_Number
     ("make_tape", 't', Kind, Some_Kind, Some_Length, Make);
begin
   Make_It;
end Make_Tape;
