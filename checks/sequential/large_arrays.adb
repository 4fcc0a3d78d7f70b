--  Arrays of 1,024 components.
pragma Profile (Ravenscar);
pragma Partition_Elaboration_Policy (Sequential);
with Control_IO; use Control_IO;
package App is
   subtype Index is Integer range 0 .. 1_023;
   type Numbers is array (Index) of Integer;
   type Marks is array (1 .. 1_024) of Boolean;
   type Offsets is array (-512 .. 511) of Index;
   type Pair is record Key : Integer; Used : Boolean; end record;
   type Pairs is array (1_000 .. 2_023) of Pair;
   procedure Run;
end App;
package body App is
   A : Numbers;
   B : Numbers;
   M : Marks;
   O : Offsets;
   P : Pairs;

   procedure Fill is
      Seed : Integer := 12_345;
   begin
      for I in Index'First .. Index'Last loop
         Seed := (Seed * 421 + 1_663) mod 7_875;
         A (I) := Seed;
         B (Index'Last - I) := Seed;
         M (I + 1) := Seed mod 3 = 0;
         O (I - 512) := (I * 5) mod 1_024;
      end loop;
      for I in P'First .. P'Last loop
         P (I).Key := A (I - 1_000);
         P (I).Used := M (I - 999) xor I mod 2 = 0;
      end loop;
   end Fill;

   procedure Sum (Total : out Integer; Marked : out Integer) is
   begin
      Total := 0;
      Marked := 0;
      for I in A'First .. A'Last loop
         Total := Total + A (I) - B (1_023 - I) / 2;
         if M (I + 1) then
            Marked := Marked + 1;
         end if;
      end loop;
   end Sum;

   procedure Run is
      Total  : Integer := 0;
      Marked : Integer := 0;
      Place  : Index := 0;
      Steps  : Natural := 0;
   begin
      Fill;
      Put ("first", A (0));
      Put ("last", A (1_023));
      Put ("turned", B (1_023));
      Sum (Total, Marked);
      Put ("total", Total);
      Put ("marked", Marked);
      Put ("through_both", A (O (O (7) - 512) mod 1_000));
      loop
         Place := (O (Place - 512) + 1) mod 1_024;
         Steps := Steps + 1;
         exit when Place = 341 or Steps = 500;
      end loop;
      Put ("steps", Steps);
      Marked := 0;
      for I in reverse P'First .. P'Last loop
         if P (I).Used then
            Marked := Marked + P (I).Key mod 10;
         end if;
      end loop;
      Put ("digits", Marked);
      Put ("length", M'Length + P'Length + Numbers'Length);
      A (Place + 700) := 1;
      Put ("not_written", Place);
   end Run;
end App;
with App;
procedure Main is
begin
   App.Run;
end Main;
