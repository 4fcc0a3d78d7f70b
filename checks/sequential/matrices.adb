--  Products and a power of matrices, and the transposed one in place.
pragma Profile (Ravenscar);
pragma Partition_Elaboration_Policy (Sequential);
with Control_IO; use Control_IO;
package App is
   Size : constant Integer := 3;
   subtype Index is Integer range 1 .. Size;
   type Row is array (Index) of Integer;
   type Matrix is array (Index) of Row;
   type Named is record Number : Integer; Cells : Matrix; end record;
   procedure Run;
end App;
package body App is
   Unit  : Matrix;
   Start : Matrix;
   Kept  : Named;

   procedure Multiply (A : in Matrix; B : in Matrix; C : in out Matrix) is
   begin
      for I in Index'First .. Index'Last loop
         for J in Index'First .. Index'Last loop
            C (I) (J) := 0;
            for K in Index'First .. Index'Last loop
               C (I) (J) := C (I) (J) + A (I) (K) * B (K) (J);
            end loop;
         end loop;
      end loop;
   end Multiply;

   procedure Raise_To (M : in out Matrix; Power : Natural) is
      Square : Matrix := M;
      Next   : Matrix := M;
      Left   : Natural := Power;
   begin
      M := Unit;
      while Left > 0 loop
         if Left mod 2 = 1 then
            Multiply (M, Square, Next);
            M := Next;
         end if;
         Multiply (Square, Square, Next);
         Square := Next;
         Left := Left / 2;
      end loop;
   end Raise_To;

   procedure Transpose (M : in out Matrix) is
      Held : Integer := 0;
   begin
      for I in 1 .. Size loop
         for J in 1 .. I - 1 loop
            Held := M (I) (J);
            M (I) (J) := M (J) (I);
            M (J) (I) := Held;
         end loop;
      end loop;
   end Transpose;

   procedure Show (M : Matrix) is
   begin
      for I in Index'First .. Index'Last loop
         for J in Index'First .. Index'Last loop
            Put ("cell", M (I) (J));
         end loop;
      end loop;
   end Show;

   procedure Run is
      M : Matrix;
   begin
      for I in Index'First .. Index'Last loop
         for J in Index'First .. Index'Last loop
            Unit (I) (J) := (if I = J then 1 else 0);
            Start (I) (J) := (if J > I then 1 elsif J = I then 2 - I else I * J - 4);
         end loop;
      end loop;
      Show (Start);
      M := Start;
      Raise_To (M, 7);
      Show (M);
      Kept.Number := 7;
      Kept.Cells := M;
      Transpose (Kept.Cells);
      Show (Kept.Cells);
      Multiply (Kept.Cells, Unit, M);
      Put ("same", (if M (3) (1) = Kept.Cells (3) (1) then Kept.Number else 0));
      Raise_To (M, 0);
      Put ("unit", M (2) (2));
   end Run;
end App;
with App;
procedure Main is
begin
   App.Run;
end Main;
