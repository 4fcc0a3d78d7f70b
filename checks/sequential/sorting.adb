--  Insertion sort, binary search, and the greatest common divisors of neighbours.
pragma Profile (Ravenscar);
pragma Partition_Elaboration_Policy (Sequential);
with Control_IO; use Control_IO;
package App is
   Size : constant Integer := 12;
   subtype Place is Integer range 1 .. Size;
   type List is array (Place) of Integer;
   procedure Run;
end App;
package body App is
   function Divisor (A : Natural; B : Natural) return Natural is
   begin
      return (if B = 0 then A else Divisor (B, A rem B));
   end Divisor;

   procedure Fill (L : in out List) is
      Seed : Integer := 5;
   begin
      for P in List'First .. List'Last loop
         Seed := (Seed * 37 + 11) mod 101;
         L (P) := Seed;
      end loop;
   end Fill;

   procedure Sort (L : in out List) is
   begin
      for P in 2 .. Size loop
         declare
            Held : constant Integer := L (P);
            Free : Integer := P;
         begin
            while Free > 1 and then L (Free - 1) > Held loop
               L (Free) := L (Free - 1);
               Free := Free - 1;
            end loop;
            L (Free) := Held;
         end;
      end loop;
   end Sort;

   procedure Find (L : in List; Value : Integer; At_Place : out Integer) is
      Low    : Integer := L'First;
      High   : Integer := L'Last;
      Middle : Integer := 0;
   begin
      At_Place := 0;
      while Low <= High loop
         Middle := (Low + High) / 2;
         if L (Middle) = Value then
            At_Place := Middle;
            return;
         elsif L (Middle) < Value then
            Low := Middle + 1;
         else
            High := Middle - 1;
         end if;
      end loop;
   end Find;

   procedure Run is
      L        : List;
      Original : List;
      Found    : Integer := 0;
   begin
      Fill (L);
      Original := L;
      Sort (L);
      for P in Place'First .. Place'Last loop
         Put ("sorted", L (P));
      end loop;
      for P in 1 .. 4 loop
         Find (L, Original (P), Found);
         Put ("found_at", Found);
      end loop;
      Find (L, 1_000, Found);
      Put ("not_found", Found);
      for P in 1 .. Size - 1 loop
         if Divisor (L (P), L (P + 1)) > 1 then
            Put ("divisor", Divisor (L (P), L (P + 1)));
         end if;
      end loop;
   end Run;
end App;
with App;
procedure Main is
begin
   App.Run;
end Main;
