--  Names that come again where an earlier one is gone, in any case, of up to 40 characters; components named like objects; labels of all characters. äöü
pragma Profile (Ravenscar);
pragma Partition_Elaboration_Policy (Sequential);
with Control_IO; use Control_IO;
package App is
   type Value is range 0 .. 1_0_0;
   type Pair is record Value : Integer; Count : Boolean; end record;
   Count : Value := 1_0;
   A234567890123456789012345678901234567890 : Integer := 40;
   procedure One;
   procedure Two (Left : Integer);
   procedure Finish_All;
end App;
package body App is
   P : Pair;

   procedure One is
      X : Integer := 1;
   begin
      P.VALUE := 5;
      p.count := TRUE;
      PUT ("P.Value", P.Value);
      for I in 1 .. 2 loop
         declare
            Y : Integer := X + I;
         begin
            Put ("y", Y);
         end;
         declare
            Y : Boolean := P.Count;
         begin
            if y then
               Put ("y_again", I);
            end if;
         end;
      end loop;
      declare
         I : Pair := P;
      begin
         Put ("i.value", I.Value);
      end;
      for I in Count .. Count + 1 loop
         Put ("i", Integer (I));
      end loop;
   END ONE;

   procedure Two (Left : Integer) is
      X : Boolean := Left > 1;
   begin
      if X then
         Put ("left", LEFT);
      end if;
      for Y in reverse 1 .. 2 loop
         Put ("Y", Y);
      end loop;
   end Two;

   procedure Local (X : Integer; Y : Integer) is
   begin
      Put ("x-y", X - Y);
   end Local;

   procedure Finish_All is
   begin
      Put ("!#$%&'()*+,-./:;<=>?@[\]^_`{|}~", 1);
      Put ("A234567890123456789012345678901234567890", a234567890123456789012345678901234567890);
      Two (2);
      Two (1);
      Local (12, 7);
   end Finish_All;
end App;
with App;
procedure Start_Of_All is
begin
   App.One;
   null;
   App.Finish_All;
   App.One;
end START_OF_All;
