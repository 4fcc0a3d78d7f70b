--  Eight parameters of all modes, scalar and composite, and calls that pass on what they were given.
pragma Profile (Ravenscar);
pragma Partition_Elaboration_Policy (Sequential);
with Control_IO; use Control_IO;
package App is
   type Small is range -5 .. 9;
   subtype Part is Integer range 0 .. 9;
   type Row is array (1 .. 4) of Integer;
   type Pair is record Key : Part; Cells : Row; end record;
   type Pairs is array (0 .. 1) of Pair;
   procedure Many (A : in Integer; B : in out Part; C : out Small; D : Row; E : in out Row; F : out Boolean; G : in out Pair; H : Boolean);
   procedure Show (V : Row);
   procedure Run;
end App;
package body App is
   Calls : Natural := 0;

   procedure Show (V : Row) is
   begin
      Put ("row", V (1) * 1_000 + V (2) * 100 + V (3) * 10 + V (4));
   end Show;

   procedure Many (A : in Integer; B : in out Part; C : out Small; D : Row; E : in out Row; F : out Boolean; G : in out Pair; H : Boolean) is
   begin
      Calls := Calls + 1;
      B := (B + A) mod 10;
      C := Small (A mod 15 - 5);
      F := not H;
      for I in D'First .. D'Last loop
         E (I) := (E (I) + D (5 - I)) mod 10;
      end loop;
      G.Key := B;
      G.Cells (Calls mod 4 + 1) := A mod 10;
      Show (E);
      Show (G.Cells);
   end Many;

   procedure Twice (P : in out Pair; V : in out Row; Flag : out Boolean) is
      Given : Row := V;
      Turn  : Small := 0;
      Count : Part := 3;
   begin
      Many (17, Count, Turn, Given, V, Flag, P, True);
      Many (25, P.Key, Turn, V, Given, Flag, P, Flag);
      Put ("turn", Integer (Turn));
      Put ("count", Count);
      Put ("key", P.Key);
      V (4) := Given (1);
   end Twice;

   procedure Set (V : out Integer; W : out Integer; X : out Integer) is
   begin
      V := 1;
      W := 2;
      X := 3;
   end Set;

   procedure Run is
      V    : Row;
      Both : Pairs;
      Flag : Boolean := False;
   begin
      for I in 1 .. 4 loop
         V (I) := I;
         Both (0).Cells (I) := 9 - I;
      end loop;
      Both (0).Key := 6;
      Both (1) := Both (0);
      Twice (Both (1), V, Flag);
      Put ("flag", (if Flag then 1 else 0));
      Show (V);
      Show (Both (0).Cells);
      Show (Both (1).Cells);
      Twice (Both (0), Both (1).Cells, Flag);
      Show (Both (1).Cells);
      Set (V (4), V (Both (0).Key mod 4 + 1), V (2));
      Show (V);
      for I in reverse 1 .. 3 loop
         Set (V (I), V (I + 1), V (4 - I));
         Show (V);
      end loop;
      Put ("calls", Calls);
   end Run;
end App;
with App;
procedure Main is
begin
   App.Run;
end Main;
