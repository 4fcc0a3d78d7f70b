pragma Profile (Ravenscar);
with Control_IO; use Control_IO;
package App is
   --  Arrays and records that if expressions choose: of many words, parts, one within another, in loops and handlers, and where a condition or an index raises.
   type Big is array (1 .. 600) of Integer;
   type Part is array (1 .. 200) of Integer;
   type Row is array (1 .. 16) of Integer;
   type Grid is array (1 .. 4) of Row;
   type Halves is array (1 .. 2) of Big;
   type Pair is record Left : Row; Count : Integer; Large : Big; end record;
   A : Big;
   B : Big;
   K : Big;
   M : Big;
   W : Halves;
   V : Part;
   G : Grid;
   H : Grid;
   P : Pair;
   Q : Pair;
   Zero : Integer := 0;
   One : Integer := 1;
   procedure Run;
end App;
package body App is
   Failed : exception;

   function Next (N : Integer) return Integer is
   begin
      return N + 1;
   end Next;

   function Chosen (N : Integer) return Boolean is
   begin
      return 12 / N > 2;
   end Chosen;

   procedure Fill (R : out Row; From : Integer) is
   begin
      for I in 1 .. 16 loop
         R (I) := From + I;
      end loop;
   end Fill;

   procedure Show (R : Row) is
   begin
      Put ("first", R (1));
      Put ("last", R (16));
   end Show;

   procedure Take (R : in out Row; Other : Row; N : Integer) is
   begin
      R := (if N = 0 then R elsif N = 1 then Other elsif N = 2 then G (1) else H (N));
   end Take;

   procedure Large is
   begin
      for I in 1 .. 600 loop
         A (I) := I * I;
         B (I) := -I;
         M (I) := 7 * I;
      end loop;
      K := (if Zero = 0 then A else B);
      Put ("k600", K (600));
      K := (if Zero = 1 then A else B);
      Put ("k600", K (600));
      A := (if One = 2 then B elsif One = 1 then M elsif One = 3 then K else A);
      Put ("a600", A (600));
      W (Next (Zero)) := (if A (1) = 7 then (if B (1) = 7 then B else M) else K);
      W (2) := ((if W (1) (3) = 21 then ((B)) else W (1)));
      Put ("w1", W (1) (600));
      Put ("w2", W (2) (600));
      W (One) := (if One = 1 then W (One + 1) else W (One));
      Put ("w1", W (1) (600));
      P.Large := (if W (1) (2) = -2 then W (2) elsif Zero = 0 then A else K);
      P.Count := 5;
      Fill (P.Left, 40);
      Q := (if P.Count = 5 then P else Q);
      Put ("q", Q.Large (600));
      Put ("count", Q.Count);
      Q.Count := 6;
      P := (if P.Count > Q.Count then P elsif P.Count = Q.Count then P else Q);
      Put ("count", P.Count);
      Show (P.Left);
   end Large;

   procedure Local is
      X : Part;
   begin
      for I in 1 .. 200 loop
         V (I) := I;
         X (I) := 2 * I;
      end loop;
      V := (if V (200) = 200 then X else V);
      X (200) := 0;
      Put ("v", V (200));
      X := (if V (200) = 0 then X elsif X (200) = 0 then V else X);
      Put ("x", X (200));
   end Local;

   procedure Parts is
      L : Row;
      N : Integer := 2;
   begin
      for I in 1 .. 4 loop
         Fill (G (I), I * 100);
         Fill (H (I), I * 1_000);
      end loop;
      L := (if N = 2 then (if G (N) (1) = 201 then H (N) else G (N)) elsif N = 3 then P.Left else L);
      Show (L);
      G (N) := (if N = 3 then L elsif N = 2 then (if N = 4 then L elsif H (1) (1) > 1_000 then G (Next (N)) else H (1)) else H (4));
      Show (G (2));
      H (N) := (if H (N) (1) > 0 then H (N) else H (1));
      Show (H (2));
      H (N) := (if H (N) (1) < 0 then H (N) else H (1));
      Show (H (2));
      for I in reverse 1 .. 4 loop
         G (I) := (if I mod 2 = 0 then G (I - 1) elsif I = 3 then L else H (I));
         exit when I = 2;
      end loop;
      Show (G (1));
      Show (G (2));
      Show (G (3));
      Show (G (4));
      for I in 0 .. 3 loop
         Take (L, P.Left, I);
         Show (L);
      end loop;
      while N < 4 loop
         L := (if N = 3 then G (N) else L);
         N := (if N = 2 then 3 else 4);
      end loop;
      Show (L);
   end Parts;

   procedure Raising is
      L : Row;
   begin
      Fill (L, 0);
      begin
         L := (if Chosen (Zero) then G (1) else G (2));
         Put ("never", 1);
      exception
         when Constraint_Error => Put ("condition", L (1));
      end;
      begin
         L := (if Zero = 1 then G (1) elsif Chosen (Zero) then G (2) else G (3));
         Put ("never", 2);
      exception
         when Constraint_Error => Put ("elsif", L (1));
      end;
      L := (if Zero = 1 then G (9 / Zero) elsif Zero = 0 then G (1) elsif Chosen (Zero) then G (3) else G (5 + Zero));
      Show (L);
      begin
         L := (if One = 1 then H (4 + One) else H (1));
         Put ("never", 3);
      exception
         when Constraint_Error => Put ("index", L (1));
      end;
      begin
         L := (if One = 2 then H (1) else H (Zero));
         Put ("never", 4);
      exception
         when Constraint_Error => Put ("else", L (1));
      end;
      begin
         G (Zero) := (if Zero = 0 then L else H (1));
         Put ("never", 5);
      exception
         when Constraint_Error => Put ("target", G (1) (1));
      end;
      begin
         raise Failed;
      exception
         when Failed =>
            L := (if Zero = 0 then H (3) else H (4));
            Show (L);
            begin
               H (1) := (if Chosen (4) then L elsif One = 1 then H (Next (4)) else L);
               H (2) := (if Chosen (6) then L elsif One = 1 then H (Next (4)) else L);
               Put ("never", 6);
            exception
               when others =>
                  H (3) := (if H (1) (1) = L (1) then G (4) else L);
                  Show (H (3));
            end;
      end;
   end Raising;

   procedure Run is
   begin
      Large;
      Local;
      Parts;
      Raising;
      G (1) := (if One = 1 then (if Zero = 0 then G (One + 4) else G (1)) else G (2));
      Put ("never", 7);
   end Run;
end App;
with App;
procedure Main is
begin
   App.Run;
end Main;
