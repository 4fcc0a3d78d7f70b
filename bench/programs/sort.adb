--  A thousand numbers that look like random ones, sorted by insertion, 40 times.
pragma Profile (Ravenscar);
with Control_IO; use Control_IO;
package App is
   type List is array (1 .. 1_000) of Integer;
   procedure Run;
end App;
package body App is
   Numbers : List;
   Seed    : Integer := 1;

   procedure Fill is
   begin
      for I in 1 .. 1_000 loop
         Seed := (Seed * 1_103_515_245 + 12_345) mod 2_147_483_648;
         Numbers (I) := Seed;
      end loop;
   end Fill;

   procedure Sort is
      Number : Integer;
      Place  : Integer;
   begin
      for I in 2 .. 1_000 loop
         Number := Numbers (I);
         Place := I;
         while Place > 1 and then Numbers (Place - 1) > Number loop
            Numbers (Place) := Numbers (Place - 1);
            Place := Place - 1;
         end loop;
         Numbers (Place) := Number;
      end loop;
   end Sort;

   procedure Run is
   begin
      for Round in 1 .. 40 loop
         Fill;
         Sort;
      end loop;
      Put ("least", Numbers (1));
      Put ("middle", Numbers (500));
      Put ("greatest", Numbers (1_000));
   end Run;
end App;
with App;
procedure Main is
begin
   App.Run;
end Main;
