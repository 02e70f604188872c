--  Makes a torn tape for salvage; Make_By_Number says how.  The kinds stand in
--  torn_inputs.ads.

with Make_By_Number;
with Torn_Inputs; use Torn_Inputs;

procedure Make_Torn is
   procedure Make_It is new Make_By_Number
     ("make_torn", 's', Kind, Some_Kind, Some_Length, Make);
begin
   Make_It;
end Make_Torn;
