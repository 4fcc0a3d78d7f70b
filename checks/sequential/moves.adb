pragma Profile (Ravenscar);
with Control_IO; use Control_IO;
package App is
   --  Arrays and records that are assigned whole, by name: from the package to a frame and back, to themselves, and parts of them.
   type Big is array (1 .. 1_024) of Integer;
   type Row is array (1 .. 16) of Integer;
   type Grid is array (1 .. 8) of Row;
   type Pair is record Left : Row; Count : Integer; Right : Row; end record;
   type Pairs is array (1 .. 3) of Pair;
   A : Big;
   B : Big;
   G : Grid;
   H : Grid;
   P : Pair;
   Q : Pairs;
   Zero : Integer := 0;
   procedure Run;
end App;
package body App is
   Calls : Integer := 0;

   function Next (N : Integer) return Integer is
   begin
      return N + 1;
   end Next;

   procedure Fill (R : out Row; From : Integer) is
   begin
      for I in 1 .. 16 loop
         R (I) := From + I;
      end loop;
   end Fill;

   procedure Show (R : Row) is
   begin
      Put ("first", R (1));
      Put ("last", R (16));
   end Show;

   procedure Whole is
   begin
      for I in 1 .. 1_024 loop
         A (I) := I * I;
         B (I) := -I;
      end loop;
      B := A;
      A (7) := 1;
      Put ("b7", B (7));
      Put ("b1024", B (1_024));
      A := (B);
      Put ("a7", A (7));
      A := ((A));
      Put ("a1024", A (1_024));
   end Whole;

   procedure Parts is
      L : Row;
      N : Integer := 2;
   begin
      for I in 1 .. 8 loop
         Fill (G (I), I * 100);
      end loop;
      H := G;
      G (1) := H (8);
      Show (G (1));
      L := H (N);
      L (1) := 5;
      H (Next (N)) := L;
      Show (H (3));
      Show (H (2));
      H (N) := H (N);
      Show (H (2));
      P.Left := G (4);
      P.Count := 9;
      P.Right := P.Left;
      P.Right (16) := 0;
      Q (2) := P;
      Q (Next (N)).Right := Q (N).Left;
      Q (1) := Q (2);
      Show (Q (3).Right);
      Show (Q (1).Right);
      Put ("count", Q (1).Count);
      P := Q (3);
      Show (P.Right);
      L := (if N = 2 then P.Right else L);
      Show (L);
      L := (if N = 3 then P.Right else G (5));
      Show (L);
   end Parts;

   procedure Order is
      L : Row;
   begin
      Calls := Calls + 1;
      Fill (L, 0);
      L (1) := 77;
      G (1 / (Calls - 1)) := L;
      Put ("never", 1);
   end Order;

   procedure Run is
   begin
      Whole;
      Parts;
      G (8) := H (8 + Zero);
      Show (G (8));
      G (Next (6)) := H (Next (8) - 1);
      Show (G (7));
      H (2) := G (Next (7) + Zero);
      Show (H (2));
      Zero := 1;
      Order;
   end Run;
end App;
with App;
procedure Main is
begin
   App.Run;
end Main;
